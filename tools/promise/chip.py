"""What a chip keeps, as far as a promise depends on it: from its configuration, or from the cells of an image."""

from dataclasses import dataclass
from typing import Any, Dict, Iterable, Iterator, NamedTuple, Optional

from telling import images

NAME, TEMPLATE, KEY = 1, 17, 22  # the places of these in a trust point
TRUST_POINTS = (64, 192)  # and of both in a record
SECRETS, FILES = (320, 352), 448
PASSWORDS = {"pin": (7, 6), "can": (13, 6), "puk": (19, 10)}
GROUPS = range(1, 22)
FILES_BEFORE_GROUPS = 2


class Party(NamedTuple):
    """Someone who issues certificates."""

    name: bytes
    template: bytes
    key: bytes


@dataclass(frozen=True)
class Record:
    """A date is six bytes, a digit each. Data groups that are absent have no entry."""

    number: int
    tries: int
    active: bool
    passwords: Dict[str, bytes]
    date: bytes
    current: Party
    previous: Optional[Party]
    ca_secret: bytes
    ri_secret: bytes
    groups: Dict[int, bytes]


def digits(text: str) -> bytes:
    """A date as records and certificates have it."""
    return bytes(map(int, text))


def party_of_configuration(table: Dict[str, Any], which: str) -> Optional[Party]:
    if f"{which}_name" not in table:
        return None
    template, key = (bytes.fromhex(table[f"{which}_{what}"]) for what in ("template", "key"))
    return Party(table[f"{which}_name"].encode(), template, key)


def record_of_configuration(table: Dict[str, Any]) -> Record:
    """The record of a chip that `make` made by this table, which has no defect."""
    return Record(
        number=table.get("number", 0),
        tries=table.get("tries", 3),
        active=table.get("active", True),
        passwords={name: table[name].encode() for name in PASSWORDS},
        date=digits(table["date"]),
        current=party_of_configuration(table, "trust"),
        previous=party_of_configuration(table, "previous"),
        ca_secret=bytes.fromhex(table["ca_secret"]),
        ri_secret=bytes.fromhex(table["ri_secret"]),
        groups={n: bytes.fromhex(table[f"dg{n}"]) for n in GROUPS if f"dg{n}" in table},
    )


def party_of_record(record: bytes, place: int, name: Optional[bytes]) -> Optional[Party]:
    if name is None:
        return None
    return Party(name, record[place + TEMPLATE : place + KEY], record[place + KEY : place + KEY + 65])


def files_of_record(record: bytes, lengths: Iterable[Optional[int]]) -> Iterator[Optional[bytes]]:
    """The files, which stand one behind the other; None of an absent one."""
    at = FILES
    for size in lengths:
        yield None if size is None else record[at : at + size]
        at += size or 0


def record_of_image(cells: bytes) -> Record:
    """The record that the cells of an image stand for."""
    image = images.read_image(cells)
    told, record = image.record, cells[images.RECORDS[image.slot] :][: images.ROOM]
    names = (told.current, told.previous)
    current, previous = (party_of_record(record, place, name) for place, name in zip(TRUST_POINTS, names))
    ca_secret, ri_secret = (record[place : place + 32] for place in SECRETS)
    files = list(files_of_record(record, told.lengths))
    return Record(
        number=told.number,
        tries=told.tries,
        active=told.active,
        passwords={name: record[place : place + size] for name, (place, size) in PASSWORDS.items()},
        date=told.date,
        current=current,
        previous=previous,
        ca_secret=ca_secret,
        ri_secret=ri_secret,
        groups={n: content for n, content in zip(GROUPS, files[FILES_BEFORE_GROUPS:]) if content is not None},
    )
