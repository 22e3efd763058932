"""Data objects in words: which tag means what in which place, and what its value says."""

from dataclasses import dataclass, field
from typing import Callable, Dict, List, Optional

from telling import tables
from telling.parts import Object, Part, count, identifier_words, next_object, tag_text
from telling.tables import MARK
from telling.templates import template_words


@dataclass(frozen=True)
class Meaning:
    """What an object is called, and either what its value says or the objects inside."""

    name: str
    says: Optional[Callable[[bytes], str]] = None
    inside: Optional["Place"] = None


@dataclass(frozen=True)
class Place:
    """The tags that mean something in one place, and what every other tag there is."""

    meanings: Dict[int, Meaning] = field(default_factory=dict)
    other: str = MARK


# ---- what values say


def is_day(month: int, day: int) -> bool:
    return 1 <= month <= 12 and 1 <= day <= 31


def date_of_digits(value: bytes) -> Optional[str]:
    """YYMMDD, a digit in each byte, as a date."""
    if len(value) != 6 or max(value) > 9 or not is_day(10 * value[2] + value[3], 10 * value[4] + value[5]):
        return None
    year, month, day = ("".join(map(str, value[at : at + 2])) for at in (0, 2, 4))
    return f"20{year}-{month}-{day}"


def date_of_text(value: bytes) -> Optional[str]:
    """YYYYMMDD in ASCII, as a date."""
    if len(value) != 8 or any(not 0x30 <= byte <= 0x39 for byte in value) or not is_day(int(value[4:6]), int(value[6:])):
        return None
    text = value.decode()
    return f"{text[:4]}-{text[4:6]}-{text[6:]}"


def digit_date_words(value: bytes) -> str:
    return date_of_digits(value) or "no date"


def text_date_words(value: bytes) -> str:
    return date_of_text(value) or "no date"


def text_words(value: bytes) -> str:
    """The text that bytes are, where they are printable ASCII."""
    if value and all(0x20 <= byte < 0x7F for byte in value):
        return f'"{value.decode()}"'
    return count(len(value), "byte") if value else "empty"


def content_words(value: bytes) -> str:
    """What a file keeps: a date, a text, or bytes."""
    return date_of_text(value) or text_words(value)


def point_words(value: bytes) -> str:
    """A point, with its number where it has the form of the model coprocessor's."""
    if len(value) != 65 or value[0] != 4:
        return f"{count(len(value), 'byte')}, no uncompressed point"
    if any(value[1:25]) or any(value[33:]) or not any(value[25:33]):
        return "an uncompressed point: 04, X half, Y half"
    return f"an uncompressed point, the model coprocessor's of the number {int.from_bytes(value[25:33], 'big')}"


def sized(size: int, what: str) -> Callable[[bytes], str]:
    """The words for a value that has one size."""
    return lambda value: what if len(value) == size else f"{count(len(value), 'byte')}, and not {size}"


def name_words(value: bytes) -> str:
    return text_words(value) if 1 <= len(value) <= 16 else f"{count(len(value), 'byte')}, and not 1 to 16"


def identifier_of(*expected: bytes) -> Callable[[bytes], str]:
    """The words for an object identifier, where only these are the ones that count."""

    def says(value: bytes) -> str:
        words = identifier_words(value, "none of the eID application")
        return words if value in expected else f"{words}: not the one that is meant here"

    return says


def other_identifier(value: bytes) -> str:
    return identifier_words(value, "an identifier that is passed over")


def password_words(value: bytes) -> str:
    if len(value) != 1:
        return f"{count(len(value), 'byte')}, and not 1"
    return tables.PASSWORDS.get(value[0], "no password")


def profile_words(value: bytes) -> str:
    return "version 1" if value == b"\0" else "another version than 1"


def expected_words(value: bytes) -> str:
    number = int.from_bytes(value, "big")
    if len(value) not in (1, 2):
        return f"{count(len(value), 'byte')}, and not 1 or 2"
    return f"at most {number or 0x100 ** len(value):,} bytes are expected"


def status_words(status: int) -> str:
    return f"{status:04X}, {tables.STATUSES.get(status, MARK)}"


def status_object_words(value: bytes) -> str:
    return status_words(int.from_bytes(value, "big")) if len(value) == 2 else "no status"


def cryptogram_words(value: bytes) -> str:
    if not value or value[0] != 1 or len(value) % 16 != 1 or len(value) == 1:
        return "not 01 with whole blocks behind it"
    return f"01 (padded by 80 and 00), and {count(len(value) // 16, 'encrypted block')}"


# ---- what tags mean, place by place

PASSED_OVER = "another object, which is passed over"
NOT_HERE = "an object that does not belong here"

TEMPLATE = Place(
    {
        0x06: Meaning("object identifier", identifier_of(tables.TEMPLATE_TYPE)),
        0x53: Meaning("discretionary data", template_words),
    },
    NOT_HERE,
)
CHAT = Meaning("certificate holder authorization template", inside=TEMPLATE)


def domain_words(value: bytes) -> str:
    return f"{count(len(value), 'byte')} of domain parameters, which are passed over"


def public_key(identifier: bytes) -> Meaning:
    return Meaning(
        "public key",
        inside=Place(
            {
                0x06: Meaning("object identifier", identifier_of(identifier)),
                0x81: Meaning("prime modulus", domain_words),
                0x82: Meaning("first coefficient", domain_words),
                0x83: Meaning("second coefficient", domain_words),
                0x84: Meaning("base point", domain_words),
                0x85: Meaning("order of the base point", domain_words),
                0x86: Meaning("public point", point_words),
                0x87: Meaning("cofactor", domain_words),
            },
            NOT_HERE,
        ),
    )


SECTORS = Meaning(
    "extension",
    inside=Place(
        {
            0x06: Meaning("object identifier", other_identifier),
            0x80: Meaning("hash of the first sector key", sized(32, "SHA-256")),
            0x81: Meaning("hash of the second sector key", sized(32, "SHA-256")),
        },
        PASSED_OVER,
    ),
)
CERTIFICATE_BODY = Place(
    {
        0x5F29: Meaning("certificate profile identifier", profile_words),
        0x42: Meaning("certification authority reference", name_words),
        0x7F49: public_key(tables.TERMINAL_AUTHENTICATION),
        0x5F20: Meaning("certificate holder reference", name_words),
        0x7F4C: CHAT,
        0x5F25: Meaning("certificate effective date", digit_date_words),
        0x5F24: Meaning("certificate expiration date", digit_date_words),
        0x65: Meaning("certificate extensions", inside=Place({0x73: SECTORS}, NOT_HERE)),
    },
    NOT_HERE,
)
CERTIFICATE = Place(
    {
        0x7F4E: Meaning("certificate body", inside=CERTIFICATE_BODY),
        0x5F37: Meaning("signature", sized(64, "over the SHA-256 of the certificate body")),
    },
    NOT_HERE,
)
CERTIFICATE_FILE = Place({**CERTIFICATE.meanings, 0x7F21: Meaning("CV certificate", inside=CERTIFICATE)}, NOT_HERE)


def auxiliary_words(value: bytes) -> str:
    return text_date_words(value) if date_of_text(value) else text_words(value)


AUXILIARY = Meaning(
    "authenticated auxiliary data",
    inside=Place(
        {
            0x73: Meaning(
                "discretionary data template",
                inside=Place(
                    {
                        0x06: Meaning("object identifier", other_identifier),
                        0x53: Meaning("discretionary data", auxiliary_words),
                    },
                    NOT_HERE,
                ),
            )
        },
        NOT_HERE,
    ),
)

PACE_SELECTION = Place(
    {
        0x80: Meaning("cryptographic mechanism reference", identifier_of(tables.PACE)),
        0x83: Meaning("reference of the password", password_words),
        0x7F4C: CHAT,
    },
    PASSED_OVER,
)
KEY_SELECTION = Place({0x83: Meaning("reference of the public key", name_words)}, PASSED_OVER)
ANNOUNCEMENT = Place(
    {
        0x80: Meaning("cryptographic mechanism reference", identifier_of(tables.TERMINAL_AUTHENTICATION)),
        0x83: Meaning("reference of the terminal's public key", name_words),
        0x91: Meaning("X half of the terminal's ephemeral public key", sized(32, "32 bytes")),
        0x67: AUXILIARY,
    },
    PASSED_OVER,
)
PROTOCOL_SELECTION = Place(
    {
        0x80: Meaning(
            "cryptographic mechanism reference",
            identifier_of(tables.CHIP_AUTHENTICATION, tables.RESTRICTED_IDENTIFICATION),
        )
    },
    PASSED_OVER,
)
COMPARISON = Place(
    {0x06: Meaning("object identifier", identifier_of(tables.BIRTH, tables.EXPIRY, tables.COMMUNITY))}, NOT_HERE
)


def dynamic(meanings: Dict[int, Meaning]) -> Place:
    """A body or an answer of GENERAL AUTHENTICATE."""
    return Place({0x7C: Meaning("dynamic authentication data", inside=Place(meanings, NOT_HERE))}, NOT_HERE)


def sector_key(which: str) -> Meaning:
    return Meaning(
        f"key of the {which} sector", inside=Place({0x7F49: public_key(tables.RESTRICTED_IDENTIFICATION)}, NOT_HERE)
    )


SENT_DYNAMIC = {
    0x80: Meaning("ephemeral public key of the terminal, for chip authentication", point_words),
    0x81: Meaning("mapping data of the terminal", point_words),
    0x83: Meaning("ephemeral public key of the terminal", point_words),
    0x85: Meaning("authentication token of the terminal", sized(8, "8 bytes")),
    0xA0: sector_key("first"),
    0xA2: sector_key("second"),
}
PACE_ANSWER = {
    0x80: Meaning("encrypted nonce", sized(16, "16 bytes")),
    0x82: Meaning("mapping data of the chip", point_words),
    0x84: Meaning("ephemeral public key of the chip", point_words),
    0x86: Meaning("authentication token of the chip", sized(8, "8 bytes")),
    0x87: Meaning("certification authority reference, the current trust point", name_words),
    0x88: Meaning("certification authority reference, the previous trust point", name_words),
}
CHIP_ANSWER = {
    0x81: Meaning("nonce of the chip", sized(8, "8 bytes")),
    0x82: Meaning("authentication token of the chip", sized(8, "8 bytes")),
}
SECTOR_ANSWER = {
    0x81: Meaning("identifier in the first sector", sized(32, "the SHA-256 of the agreed secret")),
    0x83: Meaning("identifier in the second sector", sized(32, "the SHA-256 of the agreed secret")),
}
PROTECTED_COMMAND = Place(
    {
        0x87: Meaning("padding-content indicator and cryptogram", cryptogram_words),
        0x97: Meaning("protected expected length", expected_words),
        0x8E: Meaning("MAC", sized(8, "8 bytes")),
    },
    NOT_HERE,
)
PROTECTED_REPLY = Place(
    {
        0x87: Meaning("padding-content indicator and cryptogram", cryptogram_words),
        0x99: Meaning("protected status", status_object_words),
        0x8E: Meaning("MAC", sized(8, "8 bytes")),
    },
    NOT_HERE,
)


# ---- taking apart


def take_apart(data: bytes, place: Place) -> List[Part]:
    """The objects at the front in words, and behind them what is no object."""
    parts = []
    while data:
        found = next_object(data)
        if found is None:
            return parts + [Part(f"no data object: {count(len(data), 'byte')}", value=data)]
        parts.append(object_part(found, place))
        data = data[len(found.bytes()) :]
    return parts


def object_part(found: Object, place: Place) -> Part:
    """One object in words."""
    meaning = place.meanings.get(found.tag)
    if meaning is None:
        return Part(f"{tag_text(found.tag)}: {place.other}", found.head, found.value)
    if meaning.inside is not None:
        return Part(meaning.name, found.head, inside=take_apart(found.value, meaning.inside))
    words = meaning.says(found.value) if meaning.says else ""
    return Part(f"{meaning.name}: {words}" if words else meaning.name, found.head, found.value)
