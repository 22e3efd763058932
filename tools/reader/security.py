"""EF.CardAccess and the signed EF.CardSecurity (BSI TR-03110-3): DER, and CMS for the signature (RFC 5652)."""

import datetime
import hashlib

from cryptography import x509
from cryptography.hazmat.primitives import hashes, serialization
from cryptography.hazmat.primitives.asymmetric import ec
from cryptography.x509.oid import NameOID

from reader import curve, tlv
from reader.terminal import CHIP_AUTHENTICATION, PACE, RESTRICTED_IDENTIFICATION

SEQUENCE, SET, INTEGER, OCTETS, BITS, OBJECT, BOOLEAN = 0x30, 0x31, 0x02, 0x04, 0x03, 0x06, 0x01
VERSION, PARAMETERS, KEY = 2, 13, 1
STANDARDIZED = tlv.oid("0.4.0.127.0.7.1.2")
TERMINAL_AUTHENTICATION = tlv.oid("0.4.0.127.0.7.2.2.2")
CHIP_AGREEMENT = tlv.oid("0.4.0.127.0.7.2.2.3.2")
CHIP_KEY = tlv.oid("0.4.0.127.0.7.2.2.1.2")
SECURITY_OBJECT = tlv.oid("0.4.0.127.0.7.3.2.1")
SIGNED_DATA = tlv.oid("1.2.840.113549.1.7.2")
CONTENT_TYPE, DIGEST = (tlv.oid(f"1.2.840.113549.1.9.{last}") for last in (3, 4))
SHA_256, ECDSA_SHA_256 = tlv.oid("2.16.840.1.101.3.4.2.1"), tlv.oid("1.2.840.10045.4.3.2")


def sequence(*parts):
    return tlv.put(SEQUENCE, *parts)


def integer(value):
    """A number that is not negative."""
    return tlv.put(INTEGER, value.to_bytes(value.bit_length() // 8 + 1, "big"))


def named(identifier, *parts):
    return sequence(tlv.put(OBJECT, identifier), *parts)


def set_of(*members):
    """DER has the members of a SET OF in the order of their bytes."""
    return tlv.put(SET, *sorted(members))


def parameters():
    """The curve as an algorithm: the standardized domain parameters of this number."""
    return named(STANDARDIZED, integer(PARAMETERS))


def card_access_infos():
    return [
        named(PACE, integer(VERSION), integer(PARAMETERS)),
        named(CHIP_AUTHENTICATION, integer(VERSION), integer(KEY)),
        named(CHIP_AGREEMENT, parameters(), integer(KEY)),
        named(TERMINAL_AUTHENTICATION, integer(VERSION)),
    ]


def card_access():
    return set_of(*card_access_infos())


def security_infos(chip_point):
    """What EF.CardAccess has, the chip's key, and restricted identification for terminals alone."""
    key = sequence(parameters(), tlv.put(BITS, b"\0", chip_point))
    restricted = sequence(integer(1), integer(KEY), tlv.put(BOOLEAN, b"\xff"))
    return set_of(
        *card_access_infos(), named(CHIP_KEY, key, integer(KEY)), named(RESTRICTED_IDENTIFICATION, restricted)
    )


class Signer:
    """The country's signer of test data, and the signer of documents that it certifies."""

    def __init__(self, today, days):
        self.today, self.days = today, days
        self.root_key, self.key = ec.generate_private_key(curve.CURVE), ec.generate_private_key(curve.CURVE)
        root = x509.Name([self.attribute("TEST DATA country signer")])
        name = x509.Name([self.attribute("TEST DATA document signer")])
        self.root = self.certificate(root, root, self.root_key, 1, is_root=True)
        self.certified = self.certificate(root, name, self.key, 2, is_root=False)

    @staticmethod
    def attribute(text):
        return x509.NameAttribute(NameOID.COMMON_NAME, text)

    def certificate(self, issuer, subject, key, serial, is_root):
        usages = ("content_commitment", "key_encipherment", "data_encipherment", "key_agreement")
        unused = dict.fromkeys((*usages, "encipher_only", "decipher_only"), False)
        usage = x509.KeyUsage(digital_signature=not is_root, key_cert_sign=is_root, crl_sign=is_root, **unused)
        own = x509.SubjectKeyIdentifier.from_public_key(key.public_key())
        above = x509.AuthorityKeyIdentifier.from_issuer_public_key(self.root_key.public_key())
        builder = (
            x509.CertificateBuilder()
            .issuer_name(issuer)
            .subject_name(subject)
            .public_key(key.public_key())
            .serial_number(serial)
            .not_valid_before(self.today)
            .not_valid_after(self.today + datetime.timedelta(days=self.days))
            .add_extension(x509.BasicConstraints(is_root, 0 if is_root else None), critical=True)
            .add_extension(usage, critical=True)
            .add_extension(own, critical=False)
            .add_extension(above, critical=False)
        )
        return builder.sign(self.root_key, hashes.SHA256())

    def sign(self, content):
        """The content as CMS with the signer's certificate and signature."""
        algorithm = named(SHA_256)
        attributes = [
            named(CONTENT_TYPE, set_of(tlv.put(OBJECT, SECURITY_OBJECT))),
            named(DIGEST, set_of(tlv.put(OCTETS, hashlib.sha256(content).digest()))),
        ]
        signature = self.key.sign(set_of(*attributes), ec.ECDSA(hashes.SHA256()))
        info = sequence(
            integer(1),
            sequence(self.certified.issuer.public_bytes(), integer(self.certified.serial_number)),
            algorithm,
            tlv.put(0xA0, *sorted(attributes)),
            named(ECDSA_SHA_256),
            tlv.put(OCTETS, signature),
        )
        data = sequence(
            integer(3),
            set_of(algorithm),
            named(SECURITY_OBJECT, tlv.put(0xA0, tlv.put(OCTETS, content))),
            tlv.put(0xA0, self.certified.public_bytes(serialization.Encoding.DER)),
            set_of(info),
        )
        return named(SIGNED_DATA, tlv.put(0xA0, data))
