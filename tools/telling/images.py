"""Images: what the cells of an EEPROM stand for (docs/GUIDE.md, images)."""

from dataclasses import dataclass
from typing import List, Optional

from telling import Refused, tables
from telling.objects import date_of_digits, text_words
from telling.parts import count

SIZE = 65536
OPEN = 0xA5
GATES, RECORDS, ROOM = (64, 24576), (128, 24640), 24448
SLOTS = ("first", "second")
FILE_LIMIT, FILES_LIMIT = 2048, 24000
ABSENT = 0xFFFF
DIGITS = ((7, 6, "the PIN"), (13, 6, "the CAN"), (19, 10, "the PUK"))
COUNTERS = ((4, 3, "tries"), (5, 10, "unblockings"), (6, 1, "whether the PIN is active"))
LENGTHS = 384


@dataclass
class Record:
    """The values of a record that `show` prints."""

    number: int
    tries: int
    unblocks: int
    active: bool
    date: bytes
    current: bytes
    previous: Optional[bytes]
    lengths: List[Optional[int]]


@dataclass
class Image:
    """A record, and the slot where it stands."""

    slot: int
    record: Record


class BadImage(Exception):
    """The cells stand for no record; the text says why."""


def check(holds: bool, place: int, wanted: str, found: str) -> None:
    if not holds:
        raise BadImage(f"byte {place}: expected {wanted}, found {found}")


def chosen_slot(cells: bytes) -> int:
    """The open slot, or the one of the greater number where both are open."""
    opened = [slot for slot, gate in enumerate(GATES) if cells[gate] == OPEN]
    if not opened:
        raise BadImage(f"bytes {GATES[0]} and {GATES[1]}: expected A5 in one of the two gates, found both closed")
    numbers = [cells[RECORDS[slot] : RECORDS[slot] + 4] for slot in opened]
    if len(opened) == 2 and numbers[0] == numbers[1]:
        places = f"bytes {RECORDS[0]} and {RECORDS[1]}"
        raise BadImage(f"{places}: expected two commit numbers where both slots are open, found one")
    return opened[numbers.index(max(numbers))]


def read_values(record: bytes, start: int) -> None:
    """Checks the values before the trust points, in the order of their places."""
    for place, most, what in COUNTERS:
        check(record[place] <= most, start + place, f"{what}, 0 to {most}", str(record[place]))
    for place, size, what in DIGITS:
        value = record[place : place + size]
        are_digits = all(0x30 <= byte <= 0x39 for byte in value)
        check(are_digits, start + place, f"{what} in {size} ASCII digits", value.hex())
    date = record[29:35]
    check(date_of_digits(date) is not None, start + 29, "the date in six digits YYMMDD, a byte each", date.hex())


def read_trust_point(record: bytes, at: int, start: int, which: str) -> Optional[bytes]:
    """The name of a trust point, or None of an absent one."""
    point, start = record[at : at + 128], start + at
    if point[87] == 0:
        return None
    check(point[87] == 1, start + 87, f"01 or 00, whether the {which} trust point is there", f"{point[87]:02X}")
    check(1 <= point[0] <= 16, start, f"the length of the name of the {which} trust point, 1 to 16", str(point[0]))
    check(point[22] == 4, start + 22, f"04, with which the key of the {which} trust point begins", f"{point[22]:02X}")
    return point[1 : 1 + point[0]]


def read_lengths(record: bytes, start: int) -> List[Optional[int]]:
    lengths, total = [], 0
    for number, key in enumerate(tables.FILE_KEYS):
        place = LENGTHS + 2 * number
        length = int.from_bytes(record[place : place + 2], "big")
        if length == ABSENT:
            lengths.append(None)
            continue
        total += length
        check(length <= FILE_LIMIT, start + place, f"the length of {key}, at most {FILE_LIMIT} or FFFF", str(length))
        check(total <= FILES_LIMIT, start + place, f"at most {FILES_LIMIT} bytes in all files up to {key}", str(total))
        lengths.append(length)
    return lengths


def read_image(cells: bytes) -> Image:
    """The record that the cells stand for."""
    if len(cells) != SIZE:
        raise BadImage(f"its size: expected {SIZE} bytes, found {'more' if len(cells) > SIZE else len(cells)}")
    check(cells[0] == 1, 0, "01, the layout", f"{cells[0]:02X}")
    slot = chosen_slot(cells)
    start = RECORDS[slot]
    record = cells[start : start + ROOM]
    read_values(record, start)
    current = read_trust_point(record, 64, start, "current")
    check(current is not None, start + 64 + 87, "01, because the current trust point has to be there", "00")
    previous = read_trust_point(record, 192, start, "previous")
    values = Record(
        number=int.from_bytes(record[:4], "big"),
        tries=record[4],
        unblocks=record[5],
        active=record[6] == 1,
        date=record[29:35],
        current=current,
        previous=previous,
        lengths=read_lengths(record, start),
    )
    return Image(slot, values)


PIN_STATES = ("blocked", "suspended", "usable", "usable")


def name_text(name: bytes) -> str:
    return f"{text_words(name)}, {name.hex()}"


def image_lines(cells: bytes) -> List[str]:
    """What `show` prints, in words."""
    try:
        image = read_image(cells)
    except BadImage as error:
        raise Refused(f"no image, by {error}") from None
    record = image.record
    lines = [
        f"layout 1: two slots, of which the {SLOTS[image.slot]} one has the record that counts",
        f"commit number: {record.number:,}",
        f"tries of the PIN: {record.tries} of 3 ({PIN_STATES[record.tries]})",
        f"unblockings by the PUK: {record.unblocks} left",
        f"the PIN is {'active' if record.active else 'not active'}",
        f"date of the chip: {date_of_digits(record.date)}",
        f"current trust point: {name_text(record.current)}",
        f"previous trust point: {name_text(record.previous) if record.previous else 'none'}",
    ]
    names = dict(zip(tables.FILE_KEYS, tables.FILES.values()))
    for key, length in zip(tables.FILE_KEYS, record.lengths):
        lines += [f"{names[key]}: {count(length, 'byte')}"] if length is not None else []
    return lines
