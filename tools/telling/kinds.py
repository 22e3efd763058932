"""Kinds of commands: what the rules take a command for, by its header, its body and the run that it stands in; and which rules
concern which kinds (docs/GUIDE.md, rules)."""

from typing import Dict, FrozenSet, Optional, Tuple

from telling import commands
from telling.commands import CHAINING, NAMES, PROPRIETARY, Command
from telling.course import Course
from telling.trace import Moment

# The steps whose header is GENERAL AUTHENTICATE: the run alone tells which of them one is. The first three have class 10.
FIRST, MAP, AGREE, TOKEN = commands.PACE_RUN[1:]
STEPS = (FIRST, MAP, AGREE, TOKEN, commands.AUTHENTICATE_CHIP, commands.IDENTIFY)
CHAINED_STEPS = (FIRST, MAP, AGREE)

SELECT_APPLICATION, SELECT_MASTER_FILE, SELECT_FILE = (NAMES[0xA4, p1p2] for p1p2 in (0x040C, 0x000C, 0x020C))
NEW_PIN, UNBLOCK, NEW_CAN = (NAMES[0x2C, p1p2] for p1p2 in (0x0203, 0x0303, 0x0202))
ACTIVATE, DEACTIVATE = NAMES[0x44, 0x1003], NAMES[0x04, 0x1003]
KINDS = (
    SELECT_APPLICATION,
    SELECT_MASTER_FILE,
    SELECT_FILE,
    commands.READ,
    commands.UPDATE,
    commands.SELECT_PACE,
    commands.SELECT_KEY,
    commands.IMPORT,
    commands.ANNOUNCE,
    commands.CHALLENGE,
    commands.PROVE,
    commands.SELECT_CHIP_AUTHENTICATION,
    commands.SELECT_IDENTIFICATION,
    *STEPS,
    commands.COMPARE,
    NEW_PIN,
    UNBLOCK,
    NEW_CAN,
    ACTIVATE,
    DEACTIVATE,
)

# What is of no kind: each of these is refused, but for a fragment.
NO_COMMAND = "no plain command"
NO_KIND = "a header of no kind"
FRAGMENT = "a fragment"
OUT_OF_TURN = "GENERAL AUTHENTICATE out of turn"
OTHER_PROTOCOL = commands.SELECT_PROTOCOL
WITHOUT_KIND = (NO_COMMAND, NO_KIND, FRAGMENT, OUT_OF_TURN, OTHER_PROTOCOL)


# ---- the kind of a command


def kind_of(moment: Moment, course: Course) -> Optional[str]:
    """The kind of a command, or what it is in place of one; None where nothing was heard."""
    if moment.word() != "apdu" or not course.powered:
        return None
    if moment.plain is None:
        return NO_COMMAND
    if moment.plain.is_fragment():
        return FRAGMENT
    if moment.plain.ins == 0x86:
        return step_of(moment.plain, course.session.step)
    return kind_named(course.request(moment))


def step_of(command: Command, step: Optional[str]) -> str:
    """The kind of a GENERAL AUTHENTICATE, where this is the next step of the run."""
    if command.cla not in (0x00, CHAINING) or command.p1p2:
        return NO_KIND
    is_next = step in STEPS and (command.cla == CHAINING) == (step in CHAINED_STEPS)
    return step if is_next else OUT_OF_TURN


def kind_named(request: Command) -> str:
    """The kind that the header of a request names; of a selection 41A4 its body has a part in that."""
    header = request.ins, request.p1p2
    if header == (0x22, 0x41A4) and request.cla == 0x00:
        return commands.protocol_name(request.body)
    if request.ins in (0xB0, 0xD6) and request.p1p2 < 0xA000:
        name = commands.READ if request.ins == 0xB0 else commands.UPDATE
    else:
        name = NAMES.get(header)
    has_class = request.cla == (PROPRIETARY if name == commands.COMPARE else 0x00)
    return name if name and has_class else NO_KIND


# ---- the kinds that a rule concerns

ALL = (*KINDS, *WITHOUT_KIND)
# What the application has to be selected for; and what takes a right, which is a bit of the template but for the comparison of
# the validity.
OF_APPLICATION = (commands.SELECT_IDENTIFICATION, commands.COMPARE, commands.UPDATE, commands.READ)
RIGHTFUL = (*OF_APPLICATION, NEW_CAN, ACTIVATE, DEACTIVATE)
OF_CHAIN = (commands.SELECT_KEY, commands.ANNOUNCE)
OF_FILE = (commands.READ, commands.UPDATE)
COMMITTING = (TOKEN, commands.IMPORT, commands.UPDATE, NEW_PIN, UNBLOCK, NEW_CAN, ACTIVATE, DEACTIVATE)
WHOLE = tuple(kind for kind in ALL if kind != FRAGMENT)

CONCERNED: Dict[int, FrozenSet[str]] = {
    rule: frozenset(concerned)
    for rule, concerned in {
        **{rule: ALL for rule in range(1, 9)},
        9: (*STEPS, OUT_OF_TURN, commands.IMPORT, commands.CHALLENGE, commands.PROVE),
        10: WHOLE,
        11: (commands.SELECT_PACE,),
        12: OF_FILE,
        13: (SELECT_APPLICATION, SELECT_FILE, *OF_FILE),
        14: (commands.UPDATE,),
        **{rule: (FIRST,) for rule in (15, 16, 17)},
        20: (*OF_CHAIN, commands.SELECT_CHIP_AUTHENTICATION, *RIGHTFUL, NEW_PIN, UNBLOCK),
        **{rule: OF_CHAIN for rule in (21, 22)},
        23: (commands.SELECT_KEY,),
        **{rule: (commands.ANNOUNCE,) for rule in (24, 25)},
        26: (commands.SELECT_CHIP_AUTHENTICATION, *RIGHTFUL),
        27: (commands.SELECT_CHIP_AUTHENTICATION,),
        28: RIGHTFUL,
        29: (NEW_PIN, UNBLOCK),
        30: (UNBLOCK,),
        31: RIGHTFUL,
        32: OF_APPLICATION,
        33: RIGHTFUL,
        **{rule: (commands.COMPARE,) for rule in (34, 35, 36)},
        **{rule: OF_FILE for rule in (37, 38)},
        39: (commands.UPDATE,),
        40: (commands.IDENTIFY,),
        41: (commands.AUTHENTICATE_CHIP,),
        **{rule: (commands.IMPORT,) for rule in (42, 43, 44, 45)},
        50: WHOLE,
        51: (AGREE,),
        52: (MAP, AGREE, commands.AUTHENTICATE_CHIP, commands.IDENTIFY),
        53: (commands.IMPORT, commands.PROVE),
        54: COMMITTING,
        55: (TOKEN,),
    }.items()
}

# ---- the statuses of a command that is carried out

STATUSES: Dict[str, Tuple[int, ...]] = {
    **{kind: (0x9000,) for kind in (*KINDS, FRAGMENT)},
    commands.READ: (0x9000, 0x6282),
    commands.SELECT_PACE: (0x9000, 0x63C2, 0x63C1, 0x63C0, 0x6283),
}
