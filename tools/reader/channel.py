"""Commands and replies, plain and in secure messaging with AES-128 (BSI TR-03110-3), from the terminal's side."""

import hashlib

from cryptography.hazmat.primitives import cmac
from cryptography.hazmat.primitives.ciphers import Cipher, algorithms, modes

from reader import tlv

BLOCK = 16
SECURED = 0x0C
ENCRYPTION, MAC, PASSWORD = 1, 2, 3
DONE = 0x9000


class Untrue(Exception):
    """A reply that is not the chip's: it has another MAC, token or form."""


def derive(secret, which, nonce=b""):
    """The key that is derived for this use."""
    return hashlib.sha1(secret + nonce + which.to_bytes(4, "big")).digest()[:BLOCK]


def mac(key, message):
    code = cmac.CMAC(algorithms.AES(key))
    code.update(message)
    return code.finalize()[:8]


def encrypt(key, data, vector=bytes(BLOCK)):
    encryptor = Cipher(algorithms.AES(key), modes.CBC(vector)).encryptor()
    return encryptor.update(data) + encryptor.finalize()


def decrypt(key, data, vector=bytes(BLOCK)):
    decryptor = Cipher(algorithms.AES(key), modes.CBC(vector)).decryptor()
    return decryptor.update(data) + decryptor.finalize()


def pad(data):
    return data + b"\x80" + bytes(-(len(data) + 1) % BLOCK)


def unpad(data):
    content, mark, zeros = data.rpartition(b"\x80")
    if not mark or any(zeros):
        raise Untrue("a reply is not padded")
    return content


def command(header, body=b"", expected=0):
    """The bytes of a command: short length fields where these can say it, else extended ones."""
    if len(body) <= 255 and expected <= 256:
        count = bytes([len(body)]) if body else b""
        return header + count + body + (bytes([expected & 0xFF]) if expected else b"")
    count = len(body).to_bytes(2, "big") if body else b""
    return header + b"\0" + count + body + ((expected & 0xFFFF).to_bytes(2, "big") if expected else b"")


class Channel:
    """The keys of a channel, and its send sequence counter."""

    def __init__(self, encryption, integrity):
        self.encryption, self.integrity = encryption, integrity
        self.counter = 0

    def next_counter(self):
        self.counter += 1
        return self.counter.to_bytes(BLOCK, "big")

    def vector(self, counter):
        return encrypt(self.encryption, counter)

    def wrap(self, header, body, expected):
        """The protected form of a command."""
        counter = self.next_counter()
        header = bytes([header[0] | SECURED]) + header[1:]
        objects = b""
        if body:
            objects += tlv.put(0x87, b"\x01", encrypt(self.encryption, pad(body), self.vector(counter)))
        if expected:
            places, most = (1, 256) if expected <= 256 else (2, 65536)
            objects += tlv.put(0x97, (expected % most).to_bytes(places, "big"))
        code = mac(self.integrity, counter + pad(header) + (pad(objects) if objects else b""))
        objects += tlv.put(0x8E, code)
        return command(header, objects, 256 if len(objects) <= 255 else 65536)

    def unseal(self, reply):
        """The reply inside of a protected one, as data and status."""
        counter = self.next_counter()
        objects, status = reply[:-2], reply[-2:]
        try:
            known = dict(tlv.read(objects))
            signed = objects[: -len(tlv.put(0x8E, known[0x8E]))]
        except (tlv.NotObjects, KeyError, IndexError):
            raise Untrue(f"a reply is not protected: {reply.hex()}") from None
        if mac(self.integrity, counter + pad(signed)) != known[0x8E] or known.get(0x99) != status:
            raise Untrue("a reply has a wrong MAC")
        data = known.get(0x87)
        if data is not None:
            data = unpad(decrypt(self.encryption, data[1:], self.vector(counter)))
        return data or b"", int.from_bytes(status, "big")
