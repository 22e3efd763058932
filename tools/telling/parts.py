"""Bytes taken apart: each part with its bytes and their meaning, so that all parts together are the bytes again."""

from dataclasses import dataclass, field
from typing import List, Optional, Tuple

from telling.tables import BSI_DE, MARK, OBJECT_IDENTIFIERS


@dataclass
class Part:
    """Some bytes with their meaning. `head` is a tag with its length, or empty; what follows it are either the bytes of
    `value` or the parts inside."""

    words: str
    head: bytes = b""
    value: bytes = b""
    inside: List["Part"] = field(default_factory=list)

    def bytes(self):
        return self.head + self.value + b"".join(part.bytes() for part in self.inside)


@dataclass
class Object:
    """A data object: the bytes of its tag and length, and its value."""

    tag: int
    head: bytes
    value: bytes

    def bytes(self):
        return self.head + self.value


def length_in(data: bytes) -> Optional[Tuple[int, int]]:
    """The length that these bytes begin with, in its shortest form, and how many of them say it; None where they do not."""
    if not data:
        return None
    if data[0] < 0x80:
        return data[0], 1
    size = data[0] - 0x80
    if size not in (1, 2) or len(data) < 1 + size:
        return None
    length = int.from_bytes(data[1 : 1 + size], "big")
    return None if length < (0x80, 0x100)[size - 1] else (length, 1 + size)


def next_object(data: bytes) -> Optional[Object]:
    """The data object that stands at the front, where one does."""
    if not data:
        return None
    size = 2 if data[0] & 0x1F == 0x1F else 1
    if len(data) < size or (size == 2 and (data[1] & 0x80 or data[1] < 0x1F)):
        return None
    length = length_in(data[size:])
    if length is None:
        return None
    start = size + length[1]
    if len(data) < start + length[0]:
        return None
    return Object(int.from_bytes(data[:size], "big"), data[:start], data[start : start + length[0]])


def objects_in(data: bytes) -> Optional[List[Object]]:
    """The data objects that the bytes are, one behind the other; None where they are no such list."""
    found = []
    while data:
        first = next_object(data)
        if first is None:
            return None
        found.append(first)
        data = data[len(first.bytes()) :]
    return found


def tag_text(tag: int) -> str:
    return f"{tag:04X}" if tag > 0xFF else f"{tag:02X}"


def arcs_of(data: bytes) -> Optional[str]:
    """An object identifier in dotted form (ISO/IEC 8825-1), where the bytes are one."""
    if not data or data[-1] & 0x80:
        return None
    numbers, number = [], 0
    for byte in data:
        number = number << 7 | byte & 0x7F
        if not byte & 0x80:
            numbers.append(number)
            number = 0
    first = min(numbers[0] // 40, 2)
    return ".".join(map(str, (first, numbers[0] - 40 * first, *numbers[1:])))


def identifier_words(data: bytes, otherwise: str = MARK) -> str:
    """The name of an object identifier, with its arcs."""
    arcs = arcs_of(data)
    if arcs is None:
        return "no object identifier"
    name = OBJECT_IDENTIFIERS.get(arcs[len(BSI_DE) + 1 :]) if arcs.startswith(BSI_DE + ".") else None
    return f"{name}, {arcs}" if name else f"{arcs}, {otherwise}"


def hexadecimal(text: str) -> Optional[bytes]:
    """The bytes that digits write, two a byte and of either case; None where they write none."""
    if len(text) % 2 or any(digit not in "0123456789abcdefABCDEF" for digit in text):
        return None
    return bytes.fromhex(text)


def count(number: int, what: str) -> str:
    """`1 byte`, `2 bytes`."""
    return f"{number:,} {what}" if number == 1 else f"{number:,} {what}s"
