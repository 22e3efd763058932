"""Each line of a trace with its meaning."""

from dataclasses import dataclass, field
from typing import Iterator, List, Optional, Tuple

from telling import commands, objects, tables
from telling.commands import Command
from telling.course import APART_RULES, Course
from telling.objects import point_words, status_words, take_apart
from telling.parts import Part, count
from telling.tables import MARK
from telling.trace import Ask, Moment


@dataclass
class Telling:
    """A line, what it says in a sentence, and its bytes in parts. Where it ends a chain of fragments, `joined` has the parts of
    the whole request."""

    line: str
    words: str
    parts: List[Part] = field(default_factory=list)
    joined: List[Part] = field(default_factory=list)


@dataclass
class Told:
    """A moment in words: what it is about, how it came out, the number of its session, what it is a part of, and its lines."""

    moment: Moment
    title: str
    outcome: str
    session: int
    phase: str
    tellings: List[Telling]


# ---- what was received and sent


def received_parts(data: bytes, protected: bool) -> List[Part]:
    """The bytes of a command."""
    fields = commands.fields_of(data[4:]) if len(data) >= 4 else None
    if fields is None:
        return [Part(f"no command: {count(len(data), 'byte')}", value=data)]
    parts = commands.header_parts(data[:4])
    if fields.length:
        parts.append(Part(f"length of the body: {len(fields.body):,}", value=fields.length))
    if fields.body and protected:
        parts += take_apart(fields.body, objects.PROTECTED_COMMAND)
    elif fields.body:
        parts.append(Part("the body", value=fields.body))
    if fields.expected:
        parts.append(Part(f"expected length: {fields.number_expected():,}", value=fields.expected))
    return parts


def is_protected(data: bytes) -> bool:
    return bool(data) and data[0] & commands.SECURE_MESSAGING == commands.SECURE_MESSAGING


def received_words(data: bytes, course: Course) -> str:
    if not course.powered:
        return "Received while the chip has no power."
    channel = course.session.channel
    if not channel:
        how = "with a class of secure messaging, and" if is_protected(data) else "unprotected:"
        return f"Received {how} no channel is open."
    if is_protected(data):
        return f"Received under secure messaging, in the channel of {channel}."
    return f"Received unprotected, though the channel of {channel} is open."


def status_part(data: bytes) -> Part:
    return Part(f"status: {status_words(int.from_bytes(data, 'big'))}", value=data)


def sent_telling(moment: Moment, line: str, course: Course) -> Telling:
    if moment.sent is None:
        return Telling(line, "Nothing is sent.")
    content, status = moment.sent[:-2], moment.sent[-2:]
    if moment.sent == moment.answer:
        parts = ([Part("the answer data", value=content)] if content else []) + [status_part(status)]
        return Telling(line, f"Sent as it is: {unprotected_reason(moment, course)}.", parts)
    parts = take_apart(content, objects.PROTECTED_REPLY) + [status_part(status)]
    return Telling(line, f"Sent under secure messaging, in the channel of {course.session.channel}.", parts)


def unprotected_reason(moment: Moment, course: Course) -> str:
    if course.session.channel and moment.rule in (2, 3):
        return "the refusal ends the channel"
    return "no channel was open when the command came"


# ---- the plain command and its answer


NO_PLAIN = {
    0: "There is no command: the chip has no power.",
    1: "There is no command: the bytes spell none.",
    2: "There is no command: objects of secure messaging are missing.",
    3: "There is no command: objects of secure messaging are wrong.",
}


def plain_telling(moment: Moment, line: str, course: Course, request: Optional[Command]) -> Telling:
    command = moment.plain
    if command is None:
        return Telling(line, NO_PLAIN.get(moment.rule, "There is no command."))
    header, expected = commands.header_parts(command.header()), commands.expected_words(command)
    if command.is_fragment() or course.session.fragments:
        body = [Part("a fragment of the body of the request", value=command.body)] if command.body else []
        joined = [] if command.is_fragment() or request is command else commands.body_parts(request)
        return Telling(line, f"{chain_words(moment, course, request)}; {expected}.", header + body, joined)
    return Telling(line, f"{title_of(command, course)}; {expected}.", header + commands.body_parts(command))


def chain_words(moment: Moment, course: Course, request: Command) -> str:
    """How a command stands to the open chain of fragments."""
    number = course.session.fragments + 1
    if moment.plain.is_fragment():
        return f"Fragment {number} of a request in a chain: {fragment_name(moment.plain)}"
    if moment.rule in APART_RULES:
        return f"{commands.name_of(moment.plain)}, which breaks the chain of fragments"
    return f"The last of {count(number, 'command')} of a chain: {commands.name_of(request)}"


def fragment_name(command: Command) -> str:
    """A fragment by its header alone, because the body is not whole."""
    return commands.name_of(Command(0, command.ins, command.p1p2, b"", 0))


def answer_telling(moment: Moment, line: str, course: Course, request: Optional[Command]) -> Telling:
    if moment.answer is None:
        reason = "the power was cut in a commit" if moment.is_lost() else "the chip has no power"
        return Telling(line, f"No answer: {reason}.")
    data, status = moment.answer[:-2], moment.answer[-2:]
    file = course.file_read(request) if request and request.ins == 0xB0 else None
    parts = commands.answer_parts(request, file, data) + [status_part(status)]
    return Telling(line, f"Answer, before it is protected: {status_words(moment.status())}.", parts)


# ---- questions to the coprocessor


# By the first word of a question: what is asked, the parts of the question, and those of its answer.
ASKED = {
    "nonce": ("Draw a nonce", (), ("the nonce",)),
    "challenge": ("Draw a challenge", (), ("the challenge",)),
    "pair": ("Draw a key pair", ("over this base",), ("the secret", "the public point")),
    "map": ("Map a nonce to a base", ("the nonce", "the chip's secret", "the terminal's point"), ("the base",)),
    "agree": ("Agree on a secret", ("the chip's secret", "the other's point"), ("the secret that is agreed, an X half",)),
    "verify": ("Verify a signature", ("the public key", "the digest", "the signature"), ()),
    "sign": ("Sign a digest", ("the secret", "the digest"), ("the signature",)),
}
ANSWERED = {
    "fault": "the coprocessor failed",
    "none": "that is no point",
    "yes": "the signature is right",
    "no": "the signature is wrong",
}
POINTS = ("over this base", "the terminal's point", "the other's point", "the public point", "the public key", "the base")


def ask_part(word: str, what: str) -> Part:
    data = bytes.fromhex(word)
    return Part(f"{what}: {point_words(data)}" if what in POINTS else what, value=data)


def ask_telling(ask: Ask, line: str) -> Telling:
    asked, given, answered = ASKED[ask.question[0]]
    parts = [ask_part(*pair) for pair in zip(ask.question[1:], given) if pair[0] != "-"]
    if ask.question[1:] == ["-"]:
        asked += " over the generator of the curve"
    if ask.answer[0] in ANSWERED:
        return Telling(line, f"{asked}: {ANSWERED[ask.answer[0]]}.", parts)
    return Telling(line, f"{asked}.", parts + [ask_part(*pair) for pair in zip(ask.answer, answered)])


# ---- commits and rules

EFFECTS = {
    commands.UPDATE: "the bytes are written",
    commands.IMPORT: "date or trust points have changed",
    "RESET RETRY COUNTER, new PIN": "the PIN is the new one",
    "RESET RETRY COUNTER, Unblock PIN": "the PIN has three tries again",
    "RESET RETRY COUNTER, new CAN": "the CAN is the new one",
    "ACTIVATE of the PIN": "the PIN is active",
    "DEACTIVATE of the PIN": "the PIN is not active",
}
PIN_EFFECTS = {1: "a try of the PIN is spent", 2: "a try of the PIN was spent, and all three are given back"}


def finished_words(moment: Moment, request: Optional[Command]) -> str:
    number, lost = moment.finished, moment.is_lost()
    if not number:
        return "No commit: the power was cut in the first one." if lost else "No commit: nothing is written to the EEPROM."
    name = commands.name_of(request) if request else ""
    effect = PIN_EFFECTS.get(number) if name == commands.PACE_STEPS[0x85] else EFFECTS.get(name)
    cut = " The power was cut in the next one." if lost else ""
    return f"{count(number, 'commit')} finished: {effect or MARK}.{cut}"


def rule_words(moment: Moment) -> str:
    if moment.rule == 0 and moment.answer is None:
        return "No rule refuses the command, but it is not answered."
    if moment.rule == 0:
        return "No rule refuses the command: it is carried out."
    return f"Refused. {tables.RULES.get(moment.rule, MARK)}"


# ---- moments


def power_telling(line: str) -> Telling:
    if line == "off":
        return Telling(line, "Power off: the session is over.")
    found = line.split(" ")[1]
    if found == "lost":
        return Telling(line, "Power on, and cut again while the chip looked for its record.")
    return Telling(line, f"Power on: a new session begins, and the record found has the commit number {int(found):,}.")


def received_telling(moment: Moment, line: str, course: Course) -> Telling:
    data = moment.received()
    return Telling(line, received_words(data, course), received_parts(data, is_protected(data)))


def command_tellings(moment: Moment, course: Course, request: Optional[Command]) -> Iterator[Telling]:
    asks = iter(moment.asks)
    for line in moment.lines:
        word = line.split()[0]
        if word == "apdu":
            yield received_telling(moment, line, course)
        elif word == "plain":
            yield plain_telling(moment, line, course, request)
        elif word == "ask":
            yield ask_telling(next(asks), line)
        elif word == "finished":
            yield Telling(line, finished_words(moment, request))
        elif word == "rule":
            yield Telling(line, rule_words(moment))
        elif word == "answer":
            yield answer_telling(moment, line, course, request)
        else:
            yield sent_telling(moment, line, course)


def moment_tellings(moment: Moment, course: Course, request: Optional[Command]) -> Iterator[Telling]:
    if moment.word() == "apdu":
        return command_tellings(moment, course, request)
    return iter([power_telling(moment.lines[0])])


def outcome_of(moment: Moment) -> str:
    if moment.word() != "apdu":
        return ""
    if moment.is_carried_out():
        return f"{moment.status():04X}"
    if moment.rule:
        return f"refused by rule {moment.rule}" + (f", {moment.status():04X}" if moment.answer else "")
    return "lost" if moment.is_lost() else "not answered"


def title_of(request: Command, course: Course) -> str:
    """The name of a request, with the file that it reads or writes."""
    name = commands.name_of(request)
    if name not in (commands.READ, commands.UPDATE):
        return name
    return f"{name}, {course.file_read(request) or ('no file of the chip' if request.by_short() else 'no current file')}"


NOT_HEARD = {0: "Not heard, without power", 2: "Not let in by secure messaging", 3: "Not let in by secure messaging"}


def title_of_moment(moment: Moment, request: Optional[Command], course: Course) -> str:
    if moment.word() != "apdu":
        return f"Power {moment.word()}"
    if request is None:
        return NOT_HEARD.get(moment.rule, "Bytes of no command")
    if request.is_fragment():
        return f"{fragment_name(request)}, fragment {course.session.fragments + 1}"
    return title_of(request, course)


PHASES: Tuple[Tuple[str, str], ...] = (
    ("Power", "Power"),
    ("MSE:Set AT for PACE", "PACE"),
    ("GENERAL AUTHENTICATE of chip", "Chip authentication"),
    ("MSE:Set AT for chip", "Chip authentication"),
    ("MSE:Set AT for restricted", "Restricted identification"),
    ("GENERAL AUTHENTICATE of restricted", "Restricted identification"),
    ("GENERAL AUTHENTICATE of PACE", "PACE"),
    ("MSE:Set DST", "Certificates"),
    ("PSO", "Certificates"),
    ("MSE:Set AT for terminal", "Terminal authentication"),
    ("GET CHALLENGE", "Terminal authentication"),
    ("EXTERNAL AUTHENTICATE", "Terminal authentication"),
    ("SELECT", "Files"),
    ("READ", "Files"),
    ("UPDATE", "Files"),
    ("VERIFY", "Comparisons"),
    ("RESET", "PIN management"),
    ("ACTIVATE", "PIN management"),
    ("DEACTIVATE", "PIN management"),
)


def phase_of(name: str, named: Optional[str]) -> str:
    phase = next((phase for front, phase in PHASES if name.startswith(front)), "Other commands")
    return f"PACE with {named}" if phase == "PACE" and named else phase


def tell_moments(moments: List[Moment]) -> Iterator[Told]:
    """The moments of a trace in words, one after the other."""
    course = Course()
    for moment in moments:
        request = course.request(moment)
        title, session = title_of_moment(moment, request, course), course.number
        tellings = list(moment_tellings(moment, course, request))
        course.go_on(moment)
        session = course.number if moment.word() == "on" else session
        yield Told(moment, title, outcome_of(moment), session, phase_of(title, course.session.named), tellings)
