"""brainpoolP256r1 (RFC 5639), the curve of the chip: points are 65 bytes, 04 and both coordinates.

Key agreement, signatures and the check that a point lies on the curve are those of python3-cryptography. It has no sum
of points and no base but the generator, which generic mapping takes (BSI TR-03110-3): these are computed here. It is
arithmetic to test with: it takes another time for another secret.
"""

import functools
import secrets

from cryptography.exceptions import InvalidSignature
from cryptography.hazmat.primitives import hashes
from cryptography.hazmat.primitives.asymmetric import ec, utils

CURVE = ec.BrainpoolP256R1()
P = 0xA9FB57DBA1EEA9BC3E660A909D838D726E3BF623D52620282013481D1F6E5377
A = 0x7D5A0975FC2C3057EEF67530417AFFE7FB8055C126DC5C6CE94A4B44F330B5D9
B = 0x26DC5C6CE94A4B44F330B5D9BBD77CBF958416295CF7E1CE6BCCDC18FF8C07B6
N = 0xA9FB57DBA1EEA9BC3E660A909D838D718C397AA3B561A6F7901E0E82974856A7
G = (
    0x8BD2AEB9CB7E57CB2C4B482FFC81B7AFB9DE27E1E3BD23C23A4453BD9ACE3262,
    0x547EF835C3DAC4FD97F8461A14611DC9C27745132DED8E545C1D54C72F046997,
)
SIZE = 32
PREHASHED = ec.ECDSA(utils.Prehashed(hashes.SHA256()))


def point_bytes(point):
    return b"\x04" + point[0].to_bytes(SIZE, "big") + point[1].to_bytes(SIZE, "big")


def coordinates(data):
    return int.from_bytes(data[1 : 1 + SIZE], "big"), int.from_bytes(data[1 + SIZE :], "big")


def public_key(data):
    """The key of a point, or None where the bytes are no point of the curve."""
    if len(data) != 1 + 2 * SIZE or data[0] != 4:
        return None
    try:
        return ec.EllipticCurvePublicKey.from_encoded_point(CURVE, data)
    except ValueError:
        return None


@functools.lru_cache(maxsize=8)
def private_key(secret):
    """The key of a secret, or None where it is a multiple of the order of the curve."""
    number = int.from_bytes(secret, "big") % N
    return ec.derive_private_key(number, CURVE) if number else None


def new_secret():
    return (secrets.randbelow(N - 1) + 1).to_bytes(SIZE, "big")


def public_point(secret):
    """The point of a secret over the generator."""
    numbers = private_key(secret).public_key().public_numbers()
    return point_bytes((numbers.x, numbers.y))


def agree(secret, peer):
    """The X half of the secret times the peer's point, or None where that is no point."""
    own, other = private_key(secret), public_key(peer)
    return own.exchange(ec.ECDH(), other) if own and other else None


def sign(secret, digest):
    """The signature of a digest: r and s, 32 bytes each."""
    r, s = utils.decode_dss_signature(private_key(secret).sign(digest, PREHASHED))
    return r.to_bytes(SIZE, "big") + s.to_bytes(SIZE, "big")


def verify(key, digest, signature):
    """Whether that is the key's signature of the digest."""
    known = public_key(key)
    if known is None:
        return False
    r, s = (int.from_bytes(half, "big") for half in (signature[:SIZE], signature[SIZE:]))
    try:
        known.verify(utils.encode_dss_signature(r, s), digest, PREHASHED)
    except InvalidSignature:
        return False
    return True


# The sums of generic mapping. A point is a pair of coordinates or None, which is the point at infinity; on the way it
# is X, Y, Z of Jacobian coordinates, and Z is 0 at infinity.

INFINITY = (1, 1, 0)


def doubled(point):
    x, y, z = point
    yy = y * y % P
    s = 4 * x * yy % P
    zz = z * z % P
    m = (3 * x * x + A * zz * zz) % P
    new_x = (m * m - 2 * s) % P
    return new_x, (m * (s - new_x) - 8 * yy * yy) % P, 2 * y * z % P


def plus(point, other):
    """The sum of a point in Jacobian coordinates and of one in affine coordinates."""
    x, y, z = point
    if not z:
        return (*other, 1)
    zz = z * z % P
    h = (other[0] * zz - x) % P
    r = (other[1] * zz * z - y) % P
    if not h:
        return INFINITY if r else doubled(point)
    hh = h * h % P
    hhh, v = h * hh % P, x * hh % P
    new_x = (r * r - hhh - 2 * v) % P
    return new_x, (r * (v - new_x) - y * hhh) % P, z * h % P


def affine(point):
    x, y, z = point
    if not z:
        return None
    inverse = pow(z, -1, P)
    square = inverse * inverse % P
    return x * square % P, y * square * inverse % P


def signed_digits(number):
    """The number in binary digits with a sign, the lowest first: each is 0 or odd, at most 7, and three 0 follow it."""
    digits = []
    while number:
        digit = 0
        if number & 1:
            digit = (number & 15) - (16 if number & 8 else 0)
            number -= digit
        digits.append(digit)
        number >>= 1
    return digits


def odd_multiples(point):
    """The multiples of a point of the curve by the digits that are not 0."""
    twice = affine(doubled((*point, 1)))
    multiples = {}
    for digit in (1, 3, 5, 7):
        multiples[digit], multiples[-digit] = point, (point[0], P - point[1])
        point = affine(plus((*point, 1), twice))
    return multiples


def sum_of(*products):
    """The sum of products of a number and a point of the curve, all gone through together, digit by digit."""
    rows = [(signed_digits(number), odd_multiples(point)) for number, point in products]
    total = INFINITY
    for place in reversed(range(max(len(digits) for digits, _ in rows))):
        total = doubled(total)
        for digits, multiples in rows:
            if place < len(digits) and digits[place]:
                total = plus(total, multiples[digits[place]])
    return affine(total)


def mapped(nonce, secret, peer):
    """The base of generic mapping: nonce times generator and secret times the peer's point, or None: no point."""
    if public_key(peer) is None:
        return None
    by_nonce, by_secret = (int.from_bytes(value, "big") % N for value in (nonce, secret))
    base = sum_of((by_nonce, G), (by_secret, coordinates(peer)))
    return point_bytes(base) if base else None


def times(secret, base):
    """The secret times a base that is a point of the curve."""
    return point_bytes(sum_of((int.from_bytes(secret, "big") % N, coordinates(base))))


def pair(base=None):
    """A new secret and its point over a base, which is the generator where none is given."""
    secret = new_secret()
    return secret, times(secret, base) if base else public_point(secret)
