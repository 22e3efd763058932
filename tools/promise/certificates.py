"""Certificates: what the chip looks at in one, and how one is issued."""

import hashlib
from dataclasses import dataclass
from typing import Optional, Sequence

from promise.model import signature_of
from reader import tlv
from telling import certificates, tables
from telling.parts import next_object
from telling.templates import role_of

TERMINAL, OTHER, OFFICIAL, CVCA = range(4)
SECTOR_TAGS = (0x80, 0x81)


@dataclass(frozen=True)
class Certificate:
    """The values of a certificate; a date is six bytes, a digit each; `sector` is the hash of the first sector's key."""

    issuer: bytes
    holder: bytes
    key: bytes
    template: bytes
    effective: bytes
    expiry: bytes
    sector: Optional[bytes]
    digest: bytes
    signature: bytes

    @property
    def role(self) -> int:
        return role_of(self.template)

    @property
    def is_link(self) -> bool:
        return self.role == CVCA

    @property
    def is_verifier(self) -> bool:
        return self.role in (OTHER, OFFICIAL)

    @property
    def is_terminal(self) -> bool:
        return self.role == TERMINAL


def read_certificate(data: bytes) -> Certificate:
    told = certificates.read_certificate(data)
    body = next_object(data).bytes()
    return Certificate(
        issuer=told.issuer,
        holder=told.holder,
        key=told.key,
        template=told.template,
        effective=told.effective,
        expiry=told.expiry,
        sector=told.sectors[0],
        digest=hashlib.sha256(body).digest(),
        signature=next_object(data[len(body) :]).value,
    )


def sector_hash(point: bytes) -> bytes:
    """The hash by which a certificate names the key of a sector: that of the whole public key."""
    key = tlv.put(0x7F49, tlv.put(0x06, tables.RESTRICTED_IDENTIFICATION), tlv.put(0x86, point))
    return hashlib.sha256(key).digest()


def extension(sectors: Sequence[Optional[bytes]]) -> bytes:
    hashes = [tlv.put(tag, value) for tag, value in zip(SECTOR_TAGS, sectors) if value is not None]
    return tlv.put(0x65, tlv.put(0x73, tlv.put(0x06, tables.SECTOR), *hashes)) if hashes else b""


def issue(
    signer: bytes,
    issuer: bytes,
    holder: bytes,
    key: bytes,
    template: bytes,
    effective: bytes,
    expiry: bytes,
    sectors: Sequence[Optional[bytes]] = (),
) -> bytes:
    """A certificate by the one whose key is `signer`."""
    body = tlv.put(
        0x7F4E,
        tlv.put(0x5F29, b"\0"),
        tlv.put(0x42, issuer),
        tlv.put(0x7F49, tlv.put(0x06, tables.TERMINAL_AUTHENTICATION), tlv.put(0x86, key)),
        tlv.put(0x5F20, holder),
        tlv.put(0x7F4C, tlv.put(0x06, tables.TEMPLATE_TYPE), tlv.put(0x53, template)),
        tlv.put(0x5F25, effective),
        tlv.put(0x5F24, expiry),
        extension(sectors),
    )
    return body + tlv.put(0x5F37, signature_of(signer, hashlib.sha256(body).digest()))
