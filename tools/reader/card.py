"""The card in the reader: it has power or none, and a session while it has; what it cannot answer is 6F00."""

from reader.coprocessor import NoAnswer
from reader.program import NotRun
from reader.session import LIMIT, Full, Session
from reader.trace import NoMoment

# A contactless card as PC/SC shows it (T=0 and T=1), with these historical bytes: card service data, the capabilities
# of selection, chaining and extended length fields, and 9000; and the check byte.
ATR = bytes.fromhex("3B8A80018031F873F741E082900075")
SILENT = bytes.fromhex("6F00")
FAILURES = (Full, NotRun, NoMoment, NoAnswer, OSError)


class Card:
    """A chip whose user's image is an `Image`, and whose sessions are kept in an `Archive`."""

    atr = ATR

    def __init__(self, program, image, archive, scratch, log, cut=None, ef_dir=None, limit=LIMIT):
        self.program, self.image, self.archive, self.scratch, self.log = program, image, archive, scratch, log
        self.limit = limit
        self.ef_dir = ef_dir
        # A cut that is planned and in no script yet; and whether one is in the script and did not strike so far.
        self.cut, self.is_cut_ahead = cut, False
        self.powered = False
        self.session = None
        self.is_full = False

    def power_on(self):
        """Gives power; where there was power already, it is taken first."""
        if self.powered:
            self.power_off()
        self.powered = True
        if self.ef_dir:
            self.ef_dir.power_on()
        try:
            self.log(f"power {self.begin()}")
        except FAILURES as failure:
            self.log(f"the chip does not start, and answers 6F00: {failure}")
            self.end_session()

    def begin(self):
        """Goes on with the session where a cut is still ahead, else begins one; gives what the trace says."""
        try:
            if self.session and not self.is_full:
                return self.started()
        except Full:
            pass
        if self.session:
            self.log("the planned cut is given up: the script is full")
            self.end_session()
        self.session = Session(self.archive.fresh(), self.program, self.scratch, self.image.cells, self.limit)
        if self.cut:
            self.session.plan_cut(self.cut)
            self.cut, self.is_cut_ahead = None, True
        return self.started()

    def started(self):
        told = self.session.power(on=True)
        if told == "on lost":
            self.struck()
        return told

    def power_off(self):
        """Takes the power; the image is then the next one's beginning, but while a cut is still ahead."""
        if not self.powered:
            return
        self.powered = False
        if not self.session:
            return
        try:
            self.session.power(on=False)
            self.image.replace(self.session.cells())
            self.log("power off")
        except FAILURES as failure:
            self.log(f"power off, and the image is that of the last command that committed: {failure}")
        if not self.is_cut_ahead:
            self.end_session()

    def end_session(self):
        """Keeps a session in which a command was sent."""
        session, self.session = self.session, None
        self.is_cut_ahead = self.is_full = False
        if not session:
            return
        session.close()
        try:
            if session.commands:
                self.log(f"session {self.archive.keep()} is kept")
            else:
                self.archive.drop()
        except OSError as failure:
            self.log(f"the session is not kept: {failure}")

    def transmit(self, command):
        """What the card sends for a command: always something."""
        if not self.powered or not command:
            self.log(f"6F00: {'an empty message' if self.powered else 'a command while there is no power'}")
            return SILENT
        if self.ef_dir and (reply := self.ef_dir.answer(command)):
            self.log(f"not the chip's: EF.DIR, {reply[-2:].hex()}")
            return reply
        if not self.session or self.is_full:
            return SILENT
        try:
            return self.sent(self.session.transmit(command))
        except Full as failure:
            self.is_full = True
            self.log(f"6F00 until the power is taken: {failure}")
        except FAILURES as failure:
            self.log(f"6F00: {failure}")
        return SILENT

    def sent(self, moment):
        """The reply of a moment, once what it committed is in the user's image."""
        if moment.is_lost:
            self.struck()
        elif moment.finished:
            self.image.replace(self.session.cells())
        if moment.sent is None:
            self.log("6F00: the chip is silent")
            return SILENT
        return moment.sent

    def struck(self):
        """The planned cut struck: the image is what it left."""
        self.is_cut_ahead = False
        self.image.replace(self.session.cells())
        self.log("the planned cut struck, and the chip has no power")

    def close(self):
        """Takes the power, for good."""
        self.power_off()
        if self.is_cut_ahead:
            self.log("the planned cut did not strike")
        self.end_session()
