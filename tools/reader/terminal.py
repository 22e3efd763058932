"""A terminal: PACE, terminal authentication, chip authentication and what they open (BSI TR-03110-2 and -3)."""

import hashlib

from reader import curve, tlv
from reader.channel import DONE, ENCRYPTION, MAC, PASSWORD, Channel, Untrue, command, decrypt, derive, mac

PACE = tlv.oid("0.4.0.127.0.7.2.2.4.2.2")
TERMINAL_AUTHENTICATION = tlv.oid("0.4.0.127.0.7.2.2.2.2.3")
CHIP_AUTHENTICATION = tlv.oid("0.4.0.127.0.7.2.2.3.2.2")
RESTRICTED_IDENTIFICATION = tlv.oid("0.4.0.127.0.7.2.2.5.2.3")
AUTHENTICATION_TERMINAL = tlv.oid("0.4.0.127.0.7.3.1.2.2")
BIRTH, EXPIRY, COMMUNITY = (tlv.oid(f"0.4.0.127.0.7.3.1.4.{last}") for last in (1, 2, 3))
APPLICATION = bytes.fromhex("E80704007F00070302")
CAN, PIN, PUK = 2, 3, 4
CARD_ACCESS, CARD_SECURITY = 0x1C, 0x1D
SHORT, WHOLE = 256, 65536


class Refused(Exception):
    """A step that the chip did not carry out."""

    def __init__(self, step, status):
        super().__init__(f"{step}: {status:04X}")
        self.step, self.status = step, status


def token(key, protocol, point):
    """The token over the other side's point."""
    return mac(key, tlv.put(0x7F49, tlv.put(0x06, protocol), tlv.put(0x86, point)))


class Terminal:
    """It speaks by a function that takes a command and gives the reply."""

    def __init__(self, transmit):
        self.transmit = transmit
        self.channel = None
        self.identity = b""

    def send(self, header, body=b"", expected=0):
        """Data and status of the reply, in the channel where there is one."""
        header = bytes.fromhex(header)
        if self.channel:
            return self.channel.unseal(self.transmit(self.channel.wrap(header, body, expected)))
        reply = self.transmit(command(header, body, expected))
        return reply[:-2], int.from_bytes(reply[-2:], "big")

    def must(self, step, header, body=b"", expected=0, also=()):
        """The data of a reply that has to be 9000, or one of these."""
        data, status = self.send(header, body, expected)
        if status != DONE and status not in also:
            raise Refused(step, status)
        return data

    def authenticate(self, step, header, tag, value, answer):
        """One step of GENERAL AUTHENTICATE: the value of the answer's object, or the list of all."""
        body = tlv.put(0x7C, tlv.put(tag, value) if tag else b"")
        data = self.must(step, header, body, SHORT)
        return tlv.find(data, 0x7C, answer)

    def select_pace(self, reference, template=None):
        """The status of the selection, which tells of the PIN."""
        body = tlv.put(0x80, PACE) + tlv.put(0x83, bytes([reference]))
        if template:
            body += tlv.put(0x7F4C, tlv.put(0x06, AUTHENTICATION_TERMINAL), tlv.put(0x53, template))
        return self.send("0022C1A4", body)[1]

    def pace(self, reference, password, template=None):
        """Opens a channel by a password."""
        status = self.select_pace(reference, template)
        if status != DONE and status >> 4 != 0x63C:
            raise Refused("PACE", status)
        sealed = self.authenticate("PACE, nonce", "10860000", None, b"", 0x80)
        nonce = decrypt(derive(password.encode(), PASSWORD), sealed)
        secret, point = curve.pair()
        base = curve.mapped(nonce, secret, self.authenticate("PACE, mapping", "10860000", 0x81, point, 0x82))
        if base is None:
            raise Untrue("the chip's point of the mapping is none")
        secret, point = curve.pair(base)
        other = self.authenticate("PACE, agreement", "10860000", 0x83, point, 0x84)
        shared = curve.agree(secret, other)
        if shared is None or other == point:
            raise Untrue("the chip's ephemeral point is none, or the terminal's own")
        key = derive(shared, MAC)
        answer = self.authenticate("PACE, token", "00860000", 0x85, token(key, PACE, other), 0x86)
        if answer != token(key, PACE, point):
            raise Untrue("the chip's token of PACE is wrong")
        self.channel, self.identity = Channel(derive(shared, ENCRYPTION), key), other[1:33]

    def present(self, certificates):
        """Has the chip import each of these, under the name of its issuer."""
        for certificate in certificates:
            name = tlv.find(certificate, 0x7F4E, 0x42)
            self.must("MSE:Set DST", "002281B6", tlv.put(0x83, name))
            self.must("PSO:Verify Certificate", "002A00BE", certificate)

    def terminal_authentication(self, name, secret, auxiliary=b""):
        """Proves the key of the terminal's certificate, and gives the ephemeral key that it announced."""
        ephemeral, point = curve.pair()
        body = tlv.put(0x80, TERMINAL_AUTHENTICATION) + tlv.put(0x83, name) + tlv.put(0x91, point[1:33]) + auxiliary
        self.must("MSE:Set AT, terminal authentication", "002281A4", body)
        challenge = self.must("GET CHALLENGE", "00840000", b"", SHORT)
        signed = self.identity + challenge + point[1:33] + auxiliary
        signature = curve.sign(secret, hashlib.sha256(signed).digest())
        self.must("EXTERNAL AUTHENTICATE", "00820000", signature)
        return ephemeral, point

    def chip_authentication(self, ephemeral, point, chip_key):
        """Has the chip prove its key, and goes on in the channel that comes of it."""
        self.must("MSE:Set AT, chip authentication", "002241A4", tlv.put(0x80, CHIP_AUTHENTICATION))
        data = self.must("chip authentication", "00860000", tlv.put(0x7C, tlv.put(0x80, point)), SHORT)
        nonce, answer = (tlv.find(data, 0x7C, tag) for tag in (0x81, 0x82))
        shared = curve.agree(ephemeral, chip_key)
        key = derive(shared, MAC, nonce)
        if answer != token(key, CHIP_AUTHENTICATION, point):
            raise Untrue("the chip's token of chip authentication is wrong")
        self.channel = Channel(derive(shared, ENCRYPTION, nonce), key)

    def select_application(self):
        self.must("SELECT", "00A4040C", APPLICATION)

    def read(self, short):
        """The file of a short identifier."""
        return self.must(f"READ BINARY {short:02X}", f"00B0{0x80 + short:02X}00", b"", WHOLE)

    def compare(self, identifier):
        """The status of VERIFY: 9000 is yes, 6300 no."""
        return self.send("80208000", tlv.put(0x06, identifier))[1]

    def identifier(self, sector):
        """The chip's identifier for a sector's key, which is an object 7F49."""
        self.must("MSE:Set AT, restricted identification", "002241A4", tlv.put(0x80, RESTRICTED_IDENTIFICATION))
        data = self.must("restricted identification", "00860000", tlv.put(0x7C, tlv.put(0xA0, sector)), WHOLE)
        return tlv.find(data, 0x7C, 0x81)


def auxiliary_data(**values):
    """The object 67 of what is to be compared: birth, expiry and community, as far as they are given."""
    names = {"birth": BIRTH, "expiry": EXPIRY, "community": COMMUNITY}
    entries = [tlv.put(0x73, tlv.put(0x06, names[name]), tlv.put(0x53, value)) for name, value in values.items()]
    return tlv.put(0x67, *entries)


def sector_key(point):
    """The object 7F49 of a sector's point, whose SHA-256 stands in the terminal's certificate."""
    return tlv.put(0x7F49, tlv.put(0x06, RESTRICTED_IDENTIFICATION), tlv.put(0x86, point))
