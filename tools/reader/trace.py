"""What one line of a script left in the trace."""

import dataclasses
import re

ASK = re.compile(r" ask (\w+(?: [0-9a-f-]+)*) = (.*)")
FAULT = "fault"
NONE = "none"


class NoMoment(Exception):
    """The trace does not go on as its script does."""


@dataclasses.dataclass(frozen=True)
class Moment:
    """A command as the trace tells it: questions with their answers, commits, the rule, and what was sent or None."""

    plain: str
    asks: tuple
    finished: int
    rule: int
    sent: object

    def open_question(self, answered):
        """The question that met no answer, where so many of the command's questions were answered, or None."""
        for question, answer in self.asks[answered:]:
            if answer == FAULT:
                return question
        return None

    @property
    def is_lost(self):
        """Whether the power was cut in the command."""
        return self.sent is None and self.plain != NONE


def read_moment(text, command):
    """The moment of this command, which is all that the text says."""
    head, *lines = text.splitlines() or [""]
    if head != f"apdu {command.hex()}":
        raise NoMoment("the trace goes on with another command than the script")
    asks = [found.groups() for found in map(ASK.fullmatch, lines) if found]
    values = dict(line[1:].partition(" ")[::2] for line in lines if not line.startswith(" ask "))
    try:
        sent = None if values["sent"] == NONE else bytes.fromhex(values["sent"])
        return Moment(values["plain"], tuple(asks), int(values["finished"]), int(values["rule"]), sent)
    except (KeyError, ValueError):
        raise NoMoment("the trace of a command lacks a line") from None
