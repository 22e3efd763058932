"""The course of a session: what the moments of a trace leave behind for the next ones (docs/GUIDE.md, sessions)."""

from dataclasses import dataclass, field, replace
from typing import Optional

from telling import commands, tables
from telling.commands import Command
from telling.parts import objects_in
from telling.trace import Moment

# Rules whose refusal ends the session, and those by which a command is judged apart from the open chain of fragments.
ENDING_RULES = (2, 3, 50)
APART_RULES = (4, 5, 6, 7)


@dataclass(frozen=True)
class Session:
    """What lives in a session."""

    channel: Optional[str] = None
    # the password that a run of PACE has named, and that of the last PACE that succeeded
    named: Optional[str] = None
    password: Optional[str] = None
    file: Optional[str] = None
    # the name of the next step of the run
    step: Optional[str] = None
    # the open chain of fragments: its bodies so far, and how many there are
    chain: bytes = b""
    fragments: int = 0


@dataclass
class Course:
    """The chip as a reader of the trace knows it: the session's number, whether there is power, what lives in the session."""

    number: int = 0
    powered: bool = False
    session: Session = field(default_factory=Session)

    def request(self, moment: Moment) -> Optional[Command]:
        """The request that a command is, or ends: with the bodies of the fragments before it."""
        if moment.plain is None or moment.plain.is_fragment() or moment.rule in APART_RULES:
            return moment.plain
        return replace(moment.plain, body=self.session.chain + moment.plain.body)

    def file_read(self, request: Command) -> Optional[str]:
        """The file that a READ BINARY or UPDATE BINARY means."""
        if request.by_short():
            return tables.SHORT_IDENTIFIERS.get((request.p1p2 >> 8) - 0x80)
        return self.session.file

    def go_on(self, moment: Moment) -> None:
        """Takes up what the moment leaves."""
        if moment.word() == "on":
            self.number, self.powered, self.session = self.number + 1, not moment.lines[0].endswith("lost"), Session()
        elif moment.word() == "off" or moment.is_lost():
            self.powered, self.session = False, Session()
        elif moment.rule in ENDING_RULES:
            self.number, self.session = self.number + 1, Session()
        elif moment.rule:
            self.session = replace(self.session, step=None, chain=b"", fragments=0)
        elif moment.is_carried_out():
            self.session = self.after(self.session, moment)

    def after(self, session: Session, moment: Moment) -> Session:
        """The session behind a command that was carried out."""
        if moment.plain.is_fragment():
            step = session.step if goes_on_with(moment.plain, session.step) else None
            return replace(session, step=step, chain=session.chain + moment.plain.body, fragments=session.fragments + 1)
        request = self.request(moment)
        name = commands.name_of(request)
        session = replace(session, step=commands.NEXT_STEPS.get(name), chain=b"", fragments=0)
        if name == commands.SELECT_PACE:
            return replace(session, named=password_of(request.body))
        if name == commands.PACE_STEPS[0x85]:
            return replace(session, channel=f"PACE with {session.named}", password=session.named)
        if name == commands.AUTHENTICATE_CHIP:
            return replace(session, channel="chip authentication")
        return replace(session, file=self.file_after(session, name, request))

    def file_after(self, session: Session, name: str, request: Command) -> Optional[str]:
        """The current file behind a command that was carried out."""
        if name == "SELECT of a file":
            return tables.FILES.get(int.from_bytes(request.body, "big"))
        if name.startswith("SELECT"):
            return None
        return self.file_read(request) if name in (commands.READ, commands.UPDATE) else session.file


def goes_on_with(fragment: Command, step: Optional[str]) -> bool:
    """Whether a fragment has the instruction and the parameters of this step. Only an import comes in fragments."""
    return step == commands.IMPORT and commands.NAMES.get((fragment.ins, fragment.p1p2)) == step


def password_of(body: bytes) -> str:
    """The password that a selection of PACE names."""
    named = [one.value for one in objects_in(body) or [] if one.tag == 0x83]
    return tables.PASSWORDS.get(named[0][0], "another password") if named and named[0] else "another password"
