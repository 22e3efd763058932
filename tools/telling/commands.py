"""Commands: the bytes of one (ISO/IEC 7816-4), its name, and its body and answer in words."""

from dataclasses import dataclass
from typing import List, Optional

from telling import objects, tables
from telling.objects import COMPARISON, content_words, take_apart
from telling.parts import Part, count, objects_in
from telling.security import security_infos

CHAINING, SECURE_MESSAGING, PROPRIETARY = 0x10, 0x0C, 0x80
FRAGMENTED = (0x22, 0x2A, 0xD6)


@dataclass
class Command:
    """A command without its protection."""

    cla: int
    ins: int
    p1p2: int
    body: bytes
    expected: int

    def header(self) -> bytes:
        return bytes((self.cla, self.ins)) + self.p1p2.to_bytes(2, "big")

    def is_fragment(self) -> bool:
        return self.cla == CHAINING and self.ins in FRAGMENTED

    def by_short(self) -> bool:
        return self.p1p2 >= 0x8000


@dataclass
class Fields:
    """The fields behind a header: those of the length of the body, of the body, and of the expected length."""

    length: bytes
    body: bytes
    expected: bytes

    def number_expected(self) -> int:
        """How many bytes are expected; 00 and 0000 stand for the greatest number."""
        if not self.expected:
            return 0
        number = int.from_bytes(self.expected, "big")
        return number or (0x100 if len(self.expected) == 1 else 0x10000)


def fields_of(tail: bytes) -> Optional[Fields]:
    """What follows a header, in one of the cases of ISO/IEC 7816-4."""
    if not tail:
        return Fields(b"", b"", b"")
    if len(tail) == 1:
        return Fields(b"", b"", tail)
    if tail[0]:
        return with_body(tail, 1, tail[0], 1)
    if len(tail) == 3:
        return Fields(b"", b"", tail)
    length = int.from_bytes(tail[1:3], "big")
    return with_body(tail, 3, length, 2) if len(tail) > 3 and length else None


def with_body(tail: bytes, size: int, length: int, expected: int) -> Optional[Fields]:
    """A length field of this size, the body, and an expected length or none behind it."""
    rest = tail[size + length :]
    if len(tail) < size + length or len(rest) not in (0, expected):
        return None
    return Fields(tail[:size], tail[size : size + length], rest)


# ---- the parts of a header


def class_words(cla: int) -> str:
    words = ["proprietary class" if cla & PROPRIETARY else "interindustry class"]
    words += ["command chaining, more is to come"] if cla & CHAINING else []
    words += ["secure messaging with the header in the MAC"] if cla & SECURE_MESSAGING == SECURE_MESSAGING else []
    return ", ".join(words)


def instruction_words(ins: int) -> str:
    return tables.INSTRUCTIONS.get(ins, "no instruction of the chip")


PARAMETERS = {
    (0xA4, 0x040C): "by the application identifier, no answer data",
    (0xA4, 0x000C): "the master file, no answer data",
    (0xA4, 0x020C): "a file by its identifier, no answer data",
    (0x22, 0xC1A4): "Set Authentication Template, for mutual authentication",
    (0x22, 0x81A4): "Set Authentication Template, for external authentication",
    (0x22, 0x41A4): "Set Authentication Template, for internal authentication",
    (0x22, 0x81B6): "Set Digital Signature Template, for verification",
    (0x2A, 0x00BE): "Verify Certificate, a self-descriptive one",
    (0x84, 0x0000): "no further information",
    (0x82, 0x0000): "no further information",
    (0x86, 0x0000): "no further information",
    (0x20, 0x8000): "auxiliary data",
    (0x2C, 0x0203): "a new PIN",
    (0x2C, 0x0303): "unblock the PIN",
    (0x2C, 0x0202): "a new CAN",
    (0x44, 0x1003): "the PIN",
    (0x04, 0x1003): "the PIN",
}


def file_words(p1p2: int) -> str:
    """The file and the offset that READ BINARY and UPDATE BINARY mean."""
    if p1p2 < 0x8000:
        return f"the current file, offset {p1p2}"
    short = (p1p2 >> 8) - 0x80
    return f"short identifier {short:02X}, {tables.SHORT_IDENTIFIERS.get(short, 'no file of the chip')}, offset {p1p2 & 0xFF}"


def parameter_words(ins: int, p1p2: int) -> str:
    if ins in (0xB0, 0xD6) and p1p2 < 0xA000:
        return file_words(p1p2)
    return PARAMETERS.get((ins, p1p2), "of no command of the chip")


def header_parts(header: bytes) -> List[Part]:
    p1p2 = int.from_bytes(header[2:], "big")
    return [
        Part(class_words(header[0]), value=header[:1]),
        Part(instruction_words(header[1]), value=header[1:2]),
        Part(f"P1 and P2: {parameter_words(header[1], p1p2)}", value=header[2:4]),
    ]


# ---- names

PACE_STEPS = {
    0x81: "GENERAL AUTHENTICATE of PACE, second step: map the nonce",
    0x83: "GENERAL AUTHENTICATE of PACE, third step: perform the key agreement",
    0x85: "GENERAL AUTHENTICATE of PACE, fourth step: mutual authentication",
}
ENCRYPTED_NONCE = "GENERAL AUTHENTICATE of PACE, first step: the encrypted nonce"
AUTHENTICATE_CHIP = "GENERAL AUTHENTICATE of chip authentication"
IDENTIFY = "GENERAL AUTHENTICATE of restricted identification"
SELECT_CHIP_AUTHENTICATION = "MSE:Set AT for chip authentication"
SELECT_IDENTIFICATION = "MSE:Set AT for restricted identification"
SELECT_PACE = "MSE:Set AT for PACE"
ANNOUNCE = "MSE:Set AT for terminal authentication"
SELECT_KEY = "MSE:Set DST"
SELECT_PROTOCOL = "MSE:Set AT for internal authentication"
IMPORT = "PSO:Verify Certificate"
CHALLENGE, PROVE = "GET CHALLENGE", "EXTERNAL AUTHENTICATE"
READ, UPDATE = "READ BINARY", "UPDATE BINARY"
COMPARE = "VERIFY of auxiliary data"
NAMES = {
    (0xA4, 0x040C): "SELECT of an application",
    (0xA4, 0x000C): "SELECT of the master file",
    (0xA4, 0x020C): "SELECT of a file",
    (0x22, 0xC1A4): SELECT_PACE,
    (0x22, 0x81A4): ANNOUNCE,
    (0x22, 0x81B6): SELECT_KEY,
    (0x2A, 0x00BE): IMPORT,
    (0x84, 0x0000): CHALLENGE,
    (0x82, 0x0000): PROVE,
    (0x20, 0x8000): COMPARE,
    (0x2C, 0x0203): "RESET RETRY COUNTER, new PIN",
    (0x2C, 0x0303): "RESET RETRY COUNTER, Unblock PIN",
    (0x2C, 0x0202): "RESET RETRY COUNTER, new CAN",
    (0x44, 0x1003): "ACTIVATE of the PIN",
    (0x04, 0x1003): "DEACTIVATE of the PIN",
}
# The runs: each step is followed by the next one.
PACE_RUN = (SELECT_PACE, ENCRYPTED_NONCE, PACE_STEPS[0x81], PACE_STEPS[0x83], PACE_STEPS[0x85])
RUNS = (
    PACE_RUN,
    (SELECT_KEY, IMPORT),
    (ANNOUNCE, CHALLENGE, PROVE),
    (SELECT_CHIP_AUTHENTICATION, AUTHENTICATE_CHIP),
    (SELECT_IDENTIFICATION, IDENTIFY),
)
NEXT_STEPS = {step: following for run in RUNS for step, following in zip(run, run[1:])}
COMPARISONS = {
    b"\x06\x09" + tables.BIRTH: "VERIFY of the age",
    b"\x06\x09" + tables.EXPIRY: "VERIFY of the document validity",
    b"\x06\x09" + tables.COMMUNITY: "VERIFY of the community",
}


def step_name(body: bytes) -> str:
    """Which GENERAL AUTHENTICATE it is, by the object in its 7C."""
    outer = objects_in(body) or []
    inner = objects_in(outer[0].value) if len(outer) == 1 and outer[0].tag == 0x7C else None
    if inner is None:
        return "GENERAL AUTHENTICATE"
    tag = inner[0].tag if inner else None
    if tag is None:
        return ENCRYPTED_NONCE
    if tag == 0x80:
        return AUTHENTICATE_CHIP
    return IDENTIFY if tag in (0xA0, 0xA2) else PACE_STEPS.get(tag, "GENERAL AUTHENTICATE")


def protocol_name(body: bytes) -> str:
    """Which selection 41A4 is, by the protocol in its 80, which stands there once."""
    named = [one.value for one in objects_in(body) or [] if one.tag == 0x80]
    if named == [tables.CHIP_AUTHENTICATION]:
        return SELECT_CHIP_AUTHENTICATION
    return SELECT_IDENTIFICATION if named == [tables.RESTRICTED_IDENTIFICATION] else SELECT_PROTOCOL


def name_of(command: Command) -> str:
    """What the standards call the request."""
    ins, p1p2 = command.ins, command.p1p2
    if ins in (0xB0, 0xD6) and p1p2 < 0xA000:
        return READ if ins == 0xB0 else UPDATE
    if (ins, p1p2) == (0x86, 0):
        return step_name(command.body)
    if (ins, p1p2) == (0x22, 0x41A4):
        return protocol_name(command.body)
    if (ins, p1p2) == (0x20, 0x8000):
        return COMPARISONS.get(command.body, NAMES[ins, p1p2])
    if (ins, p1p2) == (0xA4, 0x040C) and command.body == tables.APPLICATION:
        return "SELECT of the eID application"
    return NAMES.get((ins, p1p2), f"a command of no kind of the chip ({instruction_words(ins)})")


# ---- bodies and answers

BODIES = {
    SELECT_PACE: objects.PACE_SELECTION,
    SELECT_KEY: objects.KEY_SELECTION,
    IMPORT: objects.CERTIFICATE,
    ANNOUNCE: objects.ANNOUNCEMENT,
}


def body_parts(command: Command) -> List[Part]:
    """The body of a whole request."""
    body, name = command.body, name_of(command)
    if not body:
        return []
    if name in BODIES:
        return take_apart(body, BODIES[name])
    if command.ins == 0x86:
        return take_apart(body, objects.dynamic(objects.SENT_DYNAMIC))
    if (command.ins, command.p1p2) == (0x22, 0x41A4):
        return take_apart(body, objects.PROTOCOL_SELECTION)
    if (command.ins, command.p1p2) == (0x20, 0x8000):
        return take_apart(body, COMPARISON)
    return [Part(plain_body_words(command), value=body)]


def plain_body_words(command: Command) -> str:
    """A body without data objects."""
    key, body = (command.ins, command.p1p2), command.body
    if key == (0xA4, 0x040C):
        return f"application identifier, {'the eID application' if body == tables.APPLICATION else 'none of the chip'}"
    if key == (0xA4, 0x020C):
        return f"file identifier, {tables.FILES.get(int.from_bytes(body, 'big'), 'no file of the chip')}"
    if key == (0xA4, 0x000C):
        return "file identifier, the master file" if body == b"\x3f\x00" else "not the identifier of the master file"
    if key in ((0x2C, 0x0203), (0x2C, 0x0202)):
        return f"the new {'PIN' if key[1] == 0x0203 else 'CAN'}: {content_words(body)}"
    if key == (0x82, 0):
        return "the signature of the terminal" if len(body) == 64 else f"{count(len(body), 'byte')}, and a signature has 64"
    if command.ins == 0xD6:
        return f"what is written: {content_words(body)}"
    return f"{count(len(body), 'byte')} of a body"


def expected_words(command: Command) -> str:
    return f"at most {count(command.expected, 'byte')} of answer data expected" if command.expected else "no answer data expected"


def answer_parts(command: Optional[Command], file: Optional[str], data: bytes) -> List[Part]:
    """The data of a reply to this request; `file` is the one that a READ BINARY means."""
    if not data:
        return []
    name = name_of(command) if command else ""
    if name == AUTHENTICATE_CHIP:
        return take_apart(data, objects.dynamic(objects.CHIP_ANSWER))
    if name == IDENTIFY:
        return take_apart(data, objects.dynamic(objects.SECTOR_ANSWER))
    if name.startswith("GENERAL AUTHENTICATE"):
        return take_apart(data, objects.dynamic(objects.PACE_ANSWER))
    if name == CHALLENGE:
        return [Part("the challenge", value=data)]
    if name == READ:
        whole = file in ("EF.CardAccess", "EF.CardSecurity") and command.p1p2 & 0xFF == 0
        return security_infos(data) if whole else [Part(f"what was read: {content_words(data)}", value=data)]
    return [Part(f"{count(len(data), 'byte')} of data", value=data)]
