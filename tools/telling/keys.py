"""Configurations and plans, key by key: which key is refused, and what was expected there (docs/GUIDE.md)."""

import re
from dataclasses import dataclass
from typing import Any, Callable, Dict, Iterator, Optional

from telling import tables
from telling.certificates import Defect as CertificateDefect
from telling.certificates import read_certificate
from telling.images import FILE_LIMIT, FILES_LIMIT
from telling.objects import date_of_digits, date_of_text
from telling.parts import count, hexadecimal
from telling.texts import TEXT_LIMIT
from telling.toml_text import DateTime, NoTable, read_document

CERTIFICATES, REQUESTS = 8, 32
PASSWORD_DIGITS = {"can": 6, "pin": 6, "puk": 10}


@dataclass(frozen=True)
class Form:
    """What a value has to be. `differs` tells what is there in place of it, and nothing where it fits."""

    wanted: str
    differs: Callable[[Any], Optional[str]]


@dataclass(frozen=True)
class Key:
    """A key of a table with its number and form, and whether it has to be there."""

    number: int
    name: str
    form: Form
    required: bool = True


@dataclass
class BadKey:
    """The first key that is refused: its number, 0 where the text is no table, its name, its line, and why."""

    number: int
    name: str
    line: Optional[int]
    why: str


# ---- forms


def described(value: Any) -> str:
    """What a value is."""
    if isinstance(value, bool):
        return f"the truth value {str(value).lower()}"
    if isinstance(value, int):
        return f"the whole number {value}"
    if isinstance(value, float):
        return f"the number {value}, no whole one"
    if isinstance(value, str):
        shown = value if len(value) <= 24 else f"{value[:20]}.."
        return f'the text "{shown}" of {count(len(value), "character")}'.replace("\n", "\\n")
    if isinstance(value, DateTime):
        return f"the date or time {value.text}"
    return f"a list of {count(len(value), 'value')}" if isinstance(value, list) else "a table"


def form(wanted: str, fits: Callable[[Any], bool]) -> Form:
    return Form(wanted, lambda value: None if fits(value) else described(value))


def whole(low: int, high: int) -> Form:
    wanted = f"the whole number {low}" if low == high else f"a whole number from {low} to {high}"
    return form(wanted, lambda value: type(value) is int and low <= value <= high)


def is_digits(value: Any, size: int) -> bool:
    return isinstance(value, str) and re.fullmatch(f"[0-9]{{{size}}}", value) is not None


def digits(size: int) -> Form:
    return form(f"a text of {size} digits", lambda value: is_digits(value, size))


def is_date(value: Any) -> bool:
    return is_digits(value, 6) and date_of_digits(bytes(map(int, value))) is not None


def is_name(value: Any) -> bool:
    return isinstance(value, str) and value.isascii() and 1 <= len(value) <= 16


def bytes_of(value: Any) -> Optional[bytes]:
    return hexadecimal(value) if isinstance(value, str) else None


def sized(low: int, high: int, front: bytes = b"") -> Callable[[Any], Optional[str]]:
    """What differs from so many bytes that begin with these."""

    def differs(value: Any) -> Optional[str]:
        data = bytes_of(value)
        if data is None:
            return f"{described(value)}{', no hexadecimal of whole bytes' if isinstance(value, str) else ''}"
        if not low <= len(data) <= high:
            return count(len(data), "byte")
        return None if data.startswith(front) else f"bytes that begin with {data[:1].hex().upper()}"

    return differs


def hexadecimals(size: int) -> Form:
    return Form(f"{size} bytes in hexadecimal", sized(size, size))


DATE = form("a text YYMMDD of 6 digits, month 01 to 12, day 01 to 31", is_date)
LONG_DATE = form(
    "a text YYYYMMDD of 8 digits, month 01 to 12, day 01 to 31",
    lambda value: is_digits(value, 8) and date_of_text(value.encode()) is not None,
)
NAME = form("an ASCII text of 1 to 16 characters", is_name)
POINT = Form("65 bytes in hexadecimal, the first 04", sized(65, 65, b"\x04"))
TRUTH = form("`true` or `false`", lambda value: isinstance(value, bool))
FILE = Form(f"0 to {FILE_LIMIT:,} bytes in hexadecimal", sized(0, FILE_LIMIT))
COMMUNITY = Form("1 to 16 bytes in hexadecimal", sized(1, 16))
PASSWORD = form("`can`, `pin` or `puk`", lambda value: isinstance(value, str) and value in PASSWORD_DIGITS)


def certificate_differs(value: Any) -> Optional[str]:
    differs = sized(0, FILE_LIMIT)(value)
    if differs:
        return differs
    try:
        read_certificate(hexadecimal(value))
    except CertificateDefect as defect:
        return str(defect)
    return None


def list_differs(most: int, item: Callable[[Any], Optional[str]]) -> Callable[[Any], Optional[str]]:
    """What differs from a list of at most so many values of a form."""

    def differs(value: Any) -> Optional[str]:
        if not isinstance(value, list) or len(value) > most:
            return described(value)
        found = ((number, item(one)) for number, one in enumerate(value, 1))
        return next((f"value {number}: {why}" for number, why in found if why), None)

    return differs


CERTIFICATE_LIST = Form(
    f"a list of at most {CERTIFICATES} certificates in hexadecimal, each of at most {FILE_LIMIT:,} bytes",
    list_differs(CERTIFICATES, certificate_differs),
)


def requests(has_sector: bool) -> Form:
    words = [*(f"dg{number}" for number in range(1, 22)), "age", "validity", "community", *(["ri"] if has_sector else [])]
    wanted = f"a list of at most {REQUESTS} of `dg1` to `dg21`, `age`, `validity`, `community`"
    wanted += ", `ri`" if has_sector else " (and not `ri`, because `sector` is absent)"
    return Form(wanted, list_differs(REQUESTS, lambda one: None if isinstance(one, str) and one in words else described(one)))


# ---- tables of keys


def file_keys(table: Dict[str, Any]) -> Iterator[Key]:
    """The files, each of its own form, and all up to it together not too long."""
    total = 0
    for number, name in enumerate(tables.FILE_KEYS, 18):
        yield Key(number, name, FILE, number < 20)
        total += len(bytes_of(table.get(name)) or b"")
        too_many = f"{total:,}" if total > FILES_LIMIT else None
        together = Form(f"at most {FILES_LIMIT:,} bytes in all files up to this one", lambda value: too_many)
        yield Key(number, name, together, False)


def make_keys(table: Dict[str, Any]) -> Iterator[Key]:
    """What `make` reads."""
    yield Key(1, "layout", whole(1, 1), False)
    yield Key(2, "number", whole(0, 2**32 - 1), False)
    yield Key(3, "pin", digits(6))
    yield Key(4, "can", digits(6))
    yield Key(5, "puk", digits(10))
    yield Key(6, "tries", whole(0, 3), False)
    yield Key(7, "unblocks", whole(0, 10), False)
    yield Key(8, "active", TRUTH, False)
    yield Key(9, "date", DATE)
    yield Key(10, "trust_name", NAME)
    yield Key(11, "trust_template", hexadecimals(5))
    yield Key(12, "trust_key", POINT)
    if "previous_name" in table:
        yield Key(13, "previous_name", NAME)
        yield Key(14, "previous_template", hexadecimals(5))
        yield Key(15, "previous_key", POINT)
    yield Key(16, "ca_secret", hexadecimals(32))
    yield Key(17, "ri_secret", hexadecimals(32))
    yield from file_keys(table)


def kit_keys(table: Dict[str, Any]) -> Iterator[Key]:
    """What `kit` reads."""
    yield Key(1, "issuer", NAME)
    yield Key(2, "holder", NAME)
    yield Key(3, "key", POINT)
    yield Key(4, "template", hexadecimals(5))
    yield Key(5, "effective", DATE)
    yield Key(6, "expiry", DATE)
    yield Key(7, "sector1", hexadecimals(32), False)
    yield Key(8, "sector2", hexadecimals(32), False)
    yield Key(9, "signer_secret", hexadecimals(32))


def plan_keys(table: Dict[str, Any]) -> Iterator[Key]:
    """What `session` reads of a terminal."""
    password = table.get("password")
    yield Key(1, "can_first", digits(6), False)
    yield Key(2, "password", PASSWORD)
    yield Key(3, "value", digits(PASSWORD_DIGITS[password]))
    yield Key(4, "template", hexadecimals(5), False)
    yield Key(5, "certificates", CERTIFICATE_LIST, False)
    yield Key(6, "terminal_secret", hexadecimals(32))
    yield Key(7, "chip_key", POINT)
    yield Key(8, "age", LONG_DATE, False)
    yield Key(9, "validity", LONG_DATE, False)
    yield Key(10, "community", COMMUNITY, False)
    yield Key(11, "sector", POINT, False)
    yield Key(12, "requests", requests("sector" in table))


def first_bad_key(text: bytes, keys_of: Callable[[Dict[str, Any]], Iterator[Key]]) -> Optional[BadKey]:
    """The first key of a text that is refused, in the order of the keys' numbers, where one is."""
    if len(text) > TEXT_LIMIT:
        return BadKey(0, "", None, f"expected a text of at most {TEXT_LIMIT:,} bytes, found more")
    try:
        document = read_document(text)
    except NoTable as error:
        return BadKey(0, "", error.line, f"expected a TOML table, found {error.why}")
    for key in keys_of(document.table):
        if key.name not in document.table:
            if key.required:
                return BadKey(key.number, key.name, None, f"expected {key.form.wanted}, found no such key")
            continue
        found = key.form.differs(document.table[key.name])
        if found:
            return BadKey(key.number, key.name, document.lines[key.name], f"expected {key.form.wanted}, found {found}")
    return None
