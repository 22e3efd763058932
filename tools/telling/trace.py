"""Traces, as `run` and `replay` print them: the moments of a text, each with its lines."""

import re
from dataclasses import dataclass, field
from typing import Dict, List, Optional, Tuple

from telling import Refused
from telling.commands import Command
from telling.parts import count


@dataclass
class Ask:
    """A question to the coprocessor with its answer: the words of the line on both sides of ` = `."""

    question: List[str]
    answer: List[str]


@dataclass
class Moment:
    """One event with its lines. What a line that is not there would say is None."""

    first: int
    lines: List[str] = field(default_factory=list)
    plain: Optional[Command] = None
    asks: List[Ask] = field(default_factory=list)
    finished: Optional[int] = None
    rule: Optional[int] = None
    answer: Optional[bytes] = None
    sent: Optional[bytes] = None

    def word(self) -> str:
        """`on`, `off` or `apdu`."""
        return self.lines[0].split(" ")[0]

    def received(self) -> bytes:
        return bytes.fromhex(self.lines[0].split(" ")[1])

    def is_carried_out(self) -> bool:
        return self.plain is not None and self.rule == 0 and self.answer is not None

    def is_lost(self) -> bool:
        """The power was cut in a commit of this command."""
        return self.plain is not None and self.rule == 0 and self.answer is None

    def status(self) -> int:
        return int.from_bytes(self.answer[-2:], "big")


BYTES = r"(?:[0-9a-f]{2})"
QUESTIONS = rf"(?:nonce|challenge|pair (?:-|{BYTES}+)|map {BYTES}+ {BYTES}+ {BYTES}+|agree {BYTES}+ {BYTES}+"
QUESTIONS += rf"|verify {BYTES}+ {BYTES}+ {BYTES}+|sign {BYTES}+ {BYTES}+)"
NUMBER = r"(?:0|[1-9][0-9]*)"
FIRST_LINE = re.compile(rf"on (?:lost|{NUMBER})|off|apdu {BYTES}+")
# What the later lines of a command look like, by their first words; and which of them may follow a line.
FORMS = {
    "plain": re.compile(rf" plain (?:none|{BYTES} {BYTES} {BYTES}{{2}} (?:-|{BYTES}+) {NUMBER})"),
    "ask": re.compile(rf" ask {QUESTIONS} = (?:none|fault|yes|no|{BYTES}+(?: {BYTES}+)?)"),
    "finished": re.compile(rf" finished {NUMBER}"),
    "rule": re.compile(rf" rule {NUMBER}"),
    "answer": re.compile(rf" answer (?:none|{BYTES}{{2,}})"),
    "sent": re.compile(rf" sent (?:none|{BYTES}{{2,}})"),
}
AFTER: Dict[str, Tuple[str, ...]] = {
    "on": (),
    "off": (),
    "apdu": ("plain",),
    "plain": ("ask", "finished"),
    "ask": ("ask", "finished"),
    "finished": ("rule",),
    "rule": ("answer",),
    "answer": ("sent",),
    "sent": (),
}


def bytes_or_none(word: str) -> Optional[bytes]:
    return None if word == "none" else bytes.fromhex(word)


def plain_in(words: List[str]) -> Optional[Command]:
    """The command of a line ` plain`."""
    if words == ["none"]:
        return None
    cla, ins, p1p2 = (int(word, 16) for word in words[:3])
    return Command(cla, ins, p1p2, b"" if words[3] == "-" else bytes.fromhex(words[3]), int(words[4]))


def take(moment: Moment, word: str, line: str) -> None:
    """Adds a line of this kind to the moment."""
    moment.lines.append(line)
    words = line.split(" ")[2:]
    if word == "plain":
        moment.plain = plain_in(words)
    elif word == "ask":
        at = words.index("=")
        moment.asks.append(Ask(words[:at], words[at + 1 :]))
    elif word in ("finished", "rule"):
        setattr(moment, word, int(words[0]))
    else:
        setattr(moment, word, bytes_or_none(words[0]))


def read_trace(text: str) -> List[Moment]:
    """The moments of a trace, of which the last may break off between two lines."""
    moments, last = [], "off"
    lines = text.split("\n")
    if lines[-1] == "":
        lines.pop()
    for number, line in enumerate(lines, 1):
        if FIRST_LINE.fullmatch(line):
            if AFTER[last]:
                refuse(number, last)
            moments.append(Moment(number, [line]))
            last = moments[-1].word()
            continue
        last = next((word for word in AFTER[last] if FORMS[word].fullmatch(line)), None) or refuse(number, last)
        take(moments[-1], last, line)
    return moments


def wanted(last: str) -> str:
    return " or ".join(f"` {word}`" for word in AFTER[last]) or "`on`, `off` or `apdu HEX`"


def refuse(number: int, last: str) -> str:
    raise Refused(f"no trace, by line {number}: expected {wanted(last)}")


def summary(moments: List[Moment]) -> str:
    """How many commands there are, and how they came out."""
    commands = [moment for moment in moments if moment.word() == "apdu"]
    done = sum(moment.is_carried_out() for moment in commands)
    refused = sum(bool(moment.rule) for moment in commands)
    unanswered = len(commands) - done - refused
    return f"{count(len(commands), 'command')}: {done} carried out, {refused} refused, {unanswered} not answered"
