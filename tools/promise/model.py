"""The numbers of the model coprocessor (docs/GUIDE.md, the model coprocessor), as far as no random bytes go into them."""

import hashlib
from typing import Optional

MODULUS = 2**64
GENERATOR = 5


def point(number: int) -> bytes:
    """How a point is written; what is written for 0 is no point."""
    return b"\x04" + bytes(24) + (number % MODULUS).to_bytes(8, "big") + bytes(32)


def number_of_point(written: bytes) -> int:
    """The number of a point, 0 where the bytes are none."""
    number = int.from_bytes(written[25:33], "big")
    return number if written == point(number) else 0


def number_of_secret(secret: bytes) -> int:
    return int.from_bytes(secret[-8:], "big")


def public_point(secret: bytes) -> bytes:
    return point(GENERATOR * number_of_secret(secret))


def agreed(secret: bytes, peer: bytes) -> Optional[bytes]:
    """The X half of what both come to, or None where that is no point."""
    number = number_of_secret(secret) * number_of_point(peer) % MODULUS
    return point(number)[1:33] if number else None


def signature_of(key: bytes, digest: bytes) -> bytes:
    """The one signature that is right for a key: whoever knows the key can sign."""
    return hashlib.sha256(key + digest).digest() + bytes(32)
