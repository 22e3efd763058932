"""The kinds of commands, as the rules see them: by header, body and run."""

from telling import commands, kinds, tables
from telling.course import Course
from telling.trace import read_trace
from tests.looking import same
from tests.tell.forms import COMMANDS
from tests.tell.names import numbers_of, rows

FIRST, MAP, AGREE, TOKEN, CHIP, SECTORS = kinds.STEPS
ENDS = {"on": "on 0", "off": "off"}
SELECT_PACE = "00 22 c1a4 800a04007f00070202040202830102"
SELECT_CHIP = "00 22 41a4 800a04007f00070202030202"
SELECT_SECTORS = "00 22 41a4 800a04007f00070202050203"
# Commands one after the other: the plain command, or power; the rule that refused it; the kind.
SESSIONS = {
    "power": (("off", 0, None), ("on", 0, None), ("00 a4 000c -", 0, "SELECT of the master file")),
    "a run of PACE": (
        (SELECT_PACE, 0, commands.SELECT_PACE),
        ("10 86 0000 7c00", 0, FIRST),
        ("10 86 0000 7c028100", 10, MAP),
        ("10 86 0000 7c028100", 9, kinds.OUT_OF_TURN),
    ),
    "a step of another class": (
        (SELECT_PACE, 0, commands.SELECT_PACE),
        ("00 86 0000 7c00", 9, kinds.OUT_OF_TURN),
        (SELECT_CHIP, 0, commands.SELECT_CHIP_AUTHENTICATION),
        ("10 86 0000 7c00", 9, kinds.OUT_OF_TURN),
        ("80 86 0000 7c00", 5, kinds.NO_KIND),
        ("10 86 0001 7c00", 6, kinds.NO_KIND),
    ),
    "a step whose body is that of another one": (
        (SELECT_PACE, 0, commands.SELECT_PACE),
        ("10 86 0000 7c028000", 10, FIRST),
        (SELECT_CHIP, 0, commands.SELECT_CHIP_AUTHENTICATION),
        ("00 86 0000 7c00", 10, CHIP),
        (SELECT_SECTORS, 0, commands.SELECT_IDENTIFICATION),
        ("00 86 0000 7c028000", 10, SECTORS),
    ),
    "a command between two steps": (
        (SELECT_PACE, 0, commands.SELECT_PACE),
        ("00 b0 9c00 -", 0, commands.READ),
        ("10 86 0000 7c00", 9, kinds.OUT_OF_TURN),
        (SELECT_SECTORS, 0, commands.SELECT_IDENTIFICATION),
        ("10 22 c1a4 80", 0, kinds.FRAGMENT),
        ("00 86 0000 7c00", 7, kinds.OUT_OF_TURN),
    ),
    "a refused command between two steps": (
        (SELECT_PACE, 0, commands.SELECT_PACE),
        ("00 00 0000 -", 5, kinds.NO_KIND),
        ("10 86 0000 7c00", 9, kinds.OUT_OF_TURN),
    ),
    "a request in fragments": (
        ("10 22 41a4 800a04007f000702", 0, kinds.FRAGMENT),
        ("00 22 41a4 02030202", 0, commands.SELECT_CHIP_AUTHENTICATION),
        ("00 86 0000 7c00", 10, CHIP),
        ("10 2a 0000 -", 6, kinds.FRAGMENT),
        ("10 a4 0000 -", 5, kinds.NO_KIND),
    ),
    "selections of other protocols": (
        ("00 22 41a4 -", 10, kinds.OTHER_PROTOCOL),
        (f"{SELECT_CHIP}800a04007f00070202030202", 10, kinds.OTHER_PROTOCOL),
        (f"{SELECT_CHIP}80", 10, kinds.OTHER_PROTOCOL),
        (f"{SELECT_CHIP}8100", 0, commands.SELECT_CHIP_AUTHENTICATION),
        ("80 22 41a4 -", 5, kinds.NO_KIND),
    ),
    "comparisons have class 80": (
        ("80 20 8000 -", 10, commands.COMPARE),
        ("00 20 8000 -", 5, kinds.NO_KIND),
        ("80 a4 000c -", 5, kinds.NO_KIND),
    ),
    "files": (
        ("00 b0 9fff -", 13, commands.READ),
        ("00 b0 a000 -", 6, kinds.NO_KIND),
        ("00 d6 7fff 00", 12, commands.UPDATE),
    ),
    "bytes of no command": (("none", 1, kinds.NO_COMMAND), ("none", 3, kinds.NO_COMMAND)),
}


def moment_of(event, rule):
    """A moment of a trace; what was received and sent does not count here."""
    if event in ENDS:
        return ENDS[event]
    plain = event if event == "none" else f"{event} 0"
    return f"apdu 00\n plain {plain}\n finished 0\n rule {rule}\n answer 9000\n sent 9000"


def kinds_in(events):
    """The kinds of these events, which begin with power on."""
    course, found = Course(), []
    for moment in read_trace("\n".join(["on 0", *(moment_of(event, rule) for event, rule, _ in events)])):
        found.append(kinds.kind_of(moment, course))
        course.go_on(moment)
    return found[1:]


def test_kinds_of_sessions():
    for name, events in SESSIONS.items():
        yield name, same([kind for _, _, kind in events], kinds_in(events))


def test_without_power_no_kind_is_heard():
    moments = read_trace("apdu 00\n plain none\n finished 0\n rule 0\n answer none\n sent none\n")
    yield "none", same(None, kinds.kind_of(moments[0], Course()))


def test_each_command_of_the_guide_has_its_kind():
    """But for GENERAL AUTHENTICATE, whose kind is that of the run, and for the names that tell more than a kind."""
    for header, body, name in COMMANDS:
        if name.startswith("GENERAL AUTHENTICATE"):
            expected = kinds.OUT_OF_TURN
        elif name.startswith("VERIFY"):
            expected = commands.COMPARE
        elif name.startswith("a command of no kind"):
            expected = kinds.NO_KIND
        else:
            expected = name.replace("the eID application", "an application")
        event = f"{header[:2]} {header[2:4]} {header[4:]} {body or '-'}"
        yield f"{header} {body[:20]}", same([expected], kinds_in([(event, 10, None)]))


# What the guide calls the kinds that a rule concerns, with how many they are here; those of no kind are not among them.
CONCERNED = {
    "all": 25,
    "all, without a channel": 25,
    "all, in a channel": 25,
    "what takes a right": 7,
    "GENERAL AUTHENTICATE, PSO:Verify Certificate, GET CHALLENGE, EXTERNAL AUTHENTICATE": 9,
    "MSE:Set AT for PACE": 1,
    "READ, UPDATE of the current file": 2,
    "READ, UPDATE": 2,
    "UPDATE": 1,
    "VERIFY": 1,
    "RESET RETRY COUNTER, new PIN and Unblock PIN": 2,
    "MSE:Set DST, MSE:Set AT for terminal authentication": 2,
    "PSO:Verify Certificate": 1,
    "PSO:Verify Certificate, EXTERNAL AUTHENTICATE": 2,
}


def test_rules_concern_the_kinds_of_the_guide():
    found = 0
    for row in rows("## Rules"):
        for rule in numbers_of(row[0].strip("| ")):
            if row[2] in CONCERNED:
                found += 1
                yield f"rule {rule}", same(CONCERNED[row[2]], len(kinds.CONCERNED[rule] & set(kinds.KINDS)))
    yield "rules of such words", same(True, found > 20)
    yield "rules", same(sorted(tables.RULES), sorted(kinds.CONCERNED))
