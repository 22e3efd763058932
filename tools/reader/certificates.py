"""Card verifiable certificates on brainpoolP256r1 (BSI TR-03110-3), signed by ECDSA with SHA-256."""

import dataclasses
import hashlib

from reader import curve, tlv
from reader.terminal import AUTHENTICATION_TERMINAL, TERMINAL_AUTHENTICATION

SECTOR = tlv.oid("0.4.0.127.0.7.3.1.3.2")


@dataclasses.dataclass(frozen=True)
class Holder:
    """Who has a certificate: a name, a secret with its point, and a template."""

    name: bytes
    template: bytes
    secret: bytes = dataclasses.field(default_factory=curve.new_secret)

    @property
    def point(self):
        return curve.public_point(self.secret)


def coordinate(value):
    return value.to_bytes(curve.SIZE, "big")


def public_key(point, has_parameters):
    """The object 7F49, with the parameters of the curve where it is a root's."""
    before = after = b""
    if has_parameters:
        parameters = map(coordinate, (curve.P, curve.A, curve.B))
        values = [*parameters, curve.point_bytes(curve.G), coordinate(curve.N)]
        before = b"".join(tlv.put(0x81 + place, value) for place, value in enumerate(values))
        after = tlv.put(0x87, b"\x01")
    return tlv.put(0x7F49, tlv.put(0x06, TERMINAL_AUTHENTICATION), before, tlv.put(0x86, point), after)


def date(text):
    """YYMMDD, one byte a digit."""
    return bytes(int(digit) for digit in text)


def issue(issuer, holder, effective, expiry, has_parameters=False, sector=b""):
    """The holder's certificate: the object 7F4E, and the issuer's signature of it."""
    template = tlv.put(0x7F4C, tlv.put(0x06, AUTHENTICATION_TERMINAL), tlv.put(0x53, holder.template))
    extension = tlv.put(0x73, tlv.put(0x06, SECTOR), tlv.put(0x80, hashlib.sha256(sector).digest()))
    body = tlv.put(
        0x7F4E,
        tlv.put(0x5F29, b"\0"),
        tlv.put(0x42, issuer.name),
        public_key(holder.point, has_parameters),
        tlv.put(0x5F20, holder.name),
        template,
        tlv.put(0x5F25, date(effective)),
        tlv.put(0x5F24, date(expiry)),
        tlv.put(0x65, extension) if sector else b"",
    )
    return tlv.put(0x7F21, body, tlv.put(0x5F37, curve.sign(issuer.secret, hashlib.sha256(body).digest())))


def content(certificate):
    """What is sent to the chip: the body and the signature, without the object around them."""
    return tlv.find(certificate, 0x7F21)
