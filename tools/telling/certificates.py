"""Card verifiable certificates as the chip takes them (docs/GUIDE.md, certificates): read strictly, and told in words."""

from dataclasses import dataclass
from typing import Callable, List, Optional, Tuple

from telling import Refused, objects, tables
from telling.objects import date_of_digits, name_words, point_words, take_apart
from telling.parts import count, hexadecimal, next_object, tag_text
from telling.templates import rights_words, role_of
from telling.text import part_lines

SIGNATURE = 64


@dataclass
class Certificate:
    """What a certificate says."""

    issuer: bytes
    holder: bytes
    key: bytes
    template: bytes
    effective: bytes
    expiry: bytes
    sectors: Tuple[Optional[bytes], Optional[bytes]]


class Defect(Exception):
    """Bytes are no certificate: the place where that shows, and what was expected there."""

    def __init__(self, place: int, why: str):
        super().__init__(f"byte {place}: {why}")


class Cursor:
    """Bytes that are read object by object; `place` is where they begin in the whole."""

    def __init__(self, data: bytes, place: int = 0):
        self.data, self.place = data, place

    def sees(self, tag: int) -> bool:
        found = next_object(self.data)
        return found is not None and found.tag == tag

    def take(self, tag: int, what: str, fits: Callable[[bytes], bool] = lambda value: True) -> "Cursor":
        """The value of the object with this tag that stands at the front."""
        found = next_object(self.data)
        if found is None or found.tag != tag or not fits(found.value):
            raise Defect(self.place, f"expected {tag_text(tag)}, {what}")
        value = Cursor(found.value, self.place + len(found.head))
        self.place += len(found.bytes())
        self.data = self.data[len(found.bytes()) :]
        return value

    def end(self, what: str) -> None:
        if self.data:
            raise Defect(self.place, f"expected the end of {what}")


def is_name(value: bytes) -> bool:
    return 1 <= len(value) <= 16


def is_date(value: bytes) -> bool:
    return date_of_digits(value) is not None


def read_key(value: Cursor) -> bytes:
    """The point of a public key."""
    value.take(0x06, "id-TA-ECDSA-SHA-256", lambda found: found == tables.TERMINAL_AUTHENTICATION)
    for tag in range(0x81, 0x86):
        if value.sees(tag):
            value.take(tag, "a domain parameter")
    point = value.take(0x86, "a point: 65 bytes, the first 04", lambda found: len(found) == 65 and found[0] == 4).data
    if value.sees(0x87):
        value.take(0x87, "the cofactor")
    value.end("the public key")
    return point


def read_template(value: Cursor) -> bytes:
    value.take(0x06, "id-AT", lambda found: found == tables.TEMPLATE_TYPE)
    template = value.take(0x53, "a template of 5 bytes", lambda found: len(found) == 5).data
    value.end("the template")
    return template


def read_extensions(value: Cursor) -> Tuple[Optional[bytes], Optional[bytes]]:
    """The hashes of the sector keys, which stand in the first extension for sectors."""
    first = None
    while value.data:
        extension = value.take(0x73, "an extension")
        identifier = extension.take(0x06, "an object identifier").data
        if identifier == tables.SECTOR and first is None:
            first = extension
    if first is None:
        return None, None
    hashes = [read_hash(first, tag) for tag in (0x80, 0x81)]
    first.end("the extension for sectors")
    return hashes[0], hashes[1]


def read_hash(value: Cursor, tag: int) -> Optional[bytes]:
    return value.take(tag, "a hash of 32 bytes", lambda found: len(found) == 32).data if value.sees(tag) else None


def read_certificate(data: bytes) -> Certificate:
    """The certificate that bytes are; or the first defect."""
    return certificate_at(Cursor(data))


def certificate_at(whole: Cursor) -> Certificate:
    """The certificate that stands here, with nothing behind it."""
    body = whole.take(0x7F4E, "the certificate body")
    body.take(0x5F29, "the profile identifier 00", lambda found: found == b"\0")
    issuer = body.take(0x42, "the certification authority reference, 1 to 16 bytes", is_name).data
    key = read_key(body.take(0x7F49, "the public key"))
    holder = body.take(0x5F20, "the certificate holder reference, 1 to 16 bytes", is_name).data
    template = read_template(body.take(0x7F4C, "the certificate holder authorization template"))
    effective = body.take(0x5F25, "the effective date, six digits YYMMDD", is_date).data
    expiry = body.take(0x5F24, "the expiration date, six digits YYMMDD", is_date).data
    sectors = read_extensions(body.take(0x65, "the extensions")) if body.data else (None, None)
    body.end("the certificate body")
    whole.take(0x5F37, "the signature, 64 bytes", lambda found: len(found) == SIGNATURE)
    whole.end("the certificate")
    return Certificate(issuer, holder, key, template, effective, expiry, sectors)


def certificate_bytes(content: bytes) -> bytes:
    """What a file holds: the bytes themselves, or hexadecimal digits with white space between them."""
    try:
        text = "".join(content.decode("ascii").split())
    except UnicodeDecodeError:
        return content
    return hexadecimal(text) or content


def taken_out(data: bytes) -> Cursor:
    """What stands in an object 7F21, where the bytes are one; else the bytes."""
    whole = Cursor(data)
    if not whole.sees(0x7F21):
        return whole
    value = whole.take(0x7F21, "a certificate")
    whole.end("the object 7F21")
    return value


def certificate_lines(content: bytes) -> List[str]:
    """A certificate, alone or in an object 7F21, in words, and then byte by byte."""
    data = certificate_bytes(content)
    try:
        found = taken_out(data)
        size = len(found.data)
        told = certificate_at(found)
    except Defect as defect:
        raise Refused(f"no certificate, by {defect}") from None
    around = f", in an object 7F21 of {count(len(data), 'byte')}" if size < len(data) else ""
    lines = [
        f"card verifiable certificate of {count(size, 'byte')}{around}",
        f"  issuer: {name_words(told.issuer)}",
        f"  holder: {name_words(told.holder)}",
        f"  role: {tables.ROLES[role_of(told.template)]}",
        f"  rights: {rights_words(told.template)}",
        f"  effective: {date_of_digits(told.effective)}",
        f"  expiry: {date_of_digits(told.expiry)}",
        f"  public key: {point_words(told.key)}",
    ]
    for which, value in zip(("first", "second"), told.sectors):
        lines += [f"  hash of the {which} sector key: {value.hex()}"] if value is not None else []
    return lines + ["", *part_lines(take_apart(data, objects.CERTIFICATE_FILE), 0)]
