"""EF.DIR outside of the chip, for reader software that looks for applications there. It is none of the chip's files."""

SELECT, READ = 0xA4, 0xB0
IDENTIFIER = bytes.fromhex("2F00")
SHORT_IDENTIFIER = 0x1E
DONE, FEWER, BEYOND = (bytes.fromhex(status) for status in ("9000", "6282", "6B00"))
SECURED = 0x0C
# MSE and GENERAL AUTHENTICATE: from the first of them on all commands are the chip's.
PROTOCOLS = (0x22, 0x86)


class EfDir:
    """Answers plain commands for 2F00 from the power-on until the first command of a protocol."""

    def __init__(self, content):
        self.content = content
        self.power_on()

    def power_on(self):
        self.is_open, self.is_current = True, False

    def answer(self, command):
        """The reply, or None where the command is the chip's."""
        if len(command) < 4 or command[0] & SECURED or command[1] in PROTOCOLS:
            self.is_open = False
        if not self.is_open:
            return None
        if command[1] == SELECT and body_of(command) == IDENTIFIER:
            self.is_current = True
            return DONE
        if command[1] == READ and self.is_named(command[2]):
            offset = command[3] if command[2] >= 0x80 else command[2] << 8 | command[3]
            return self.read(offset, expected(command))
        self.is_current = False
        return None

    def is_named(self, first):
        """Whether the first parameter of READ BINARY names this file; it is the current one from then on."""
        self.is_current = first == 0x80 + SHORT_IDENTIFIER or first < 0x80 and self.is_current
        return self.is_current

    def read(self, offset, count):
        if offset > len(self.content):
            return BEYOND
        data = self.content[offset : offset + count]
        return data + (FEWER if len(data) < count and count not in (256, 65536) else DONE)


def body_of(command):
    """The body of a short command."""
    return command[5 : 5 + command[4]] if len(command) > 5 else b""


def expected(command):
    """The expected length of a command without a body."""
    if len(command) == 5:
        return command[4] or 256
    return int.from_bytes(command[5:7], "big") or 65536 if len(command) == 7 else 0
