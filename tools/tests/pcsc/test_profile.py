"""The profile: its files, its signatures, and a whole session with the chip that is made of it."""

import hashlib
import subprocess
import tomllib
import unittest

from cryptography import x509
from cryptography.hazmat.primitives import hashes
from cryptography.hazmat.primitives.asymmetric import ec
from cryptography.hazmat.primitives.serialization import load_pem_private_key

from reader import curve, terminal, tlv
from reader.certificates import content
from reader.terminal import Terminal
from support import TOOLS, Place

PACE_INFO = bytes.fromhex("3012060A04007F0007020204020202010202010D")


class Files(Place):
    def setUp(self):
        super().setUp()
        self.plan = self.make_profile()
        self.profile = self.folder / "profile"
        self.chip = tomllib.loads((self.profile / "chip.toml").read_text())

    def certificate(self, name):
        """Body, issuer, holder, key and signature of a certificate, which is all of its file."""
        ((tag, value),) = tlv.read((self.profile / name).read_bytes())
        self.assertEqual(tag, 0x7F21)
        (_, body), (_, signature) = tlv.read(value)
        signed = tlv.put(0x7F4E, body)
        names = [tlv.find(body, number) for number in (0x42, 0x5F20)]
        return signed, *names, tlv.find(body, 0x7F49, 0x86), signature

    def test_each_file_says_that_it_is_test_data(self):
        files = list(self.profile.iterdir())
        self.assertEqual(len(files), 10)
        for path in files:
            data = path.read_bytes()
            self.assertTrue(b"Test data" in data or b"DETEST" in data, path.name)

    def test_the_certificates_are_a_chain(self):
        root = self.certificate("root.cvcert")
        for name, signer in (("root", "root"), ("link", "root"), ("verifier", "root"), ("terminal", "verifier")):
            body, issuer, _, _, signature = self.certificate(f"{name}.cvcert")
            _, _, holder, key, _ = self.certificate(f"{signer}.cvcert")
            self.assertEqual(issuer, holder, name)
            self.assertTrue(curve.verify(key, hashlib.sha256(body).digest(), signature), name)
        self.assertEqual(root[3].hex(), self.chip["trust_key"])
        self.assertEqual(root[2].decode(), self.chip["trust_name"])

    def test_the_terminals_keys_are_one(self):
        key = load_pem_private_key((self.profile / "terminal.pem").read_bytes(), None)
        secret = key.private_numbers().private_value.to_bytes(32, "big")
        self.assertEqual(secret.hex(), self.plan["terminal_secret"])
        self.assertEqual(curve.public_point(secret), self.certificate("terminal.cvcert")[3])

    def test_card_access_names_pace(self):
        self.assertIn(PACE_INFO, bytes.fromhex(self.chip["card_access"]))

    def test_card_security_is_signed_and_has_the_key_of_ca_secret(self):
        data = bytes.fromhex(self.chip["card_security"])
        self.assertLessEqual(len(data), 2048)
        signed = tlv.find(data, 0x30, 0xA0, 0x30)
        infos = tlv.find(signed, 0x30, 0xA0, 0x04)
        point = curve.public_point(bytes.fromhex(self.chip["ca_secret"]))
        self.assertIn(point, infos)
        self.assertEqual(point.hex(), self.plan["chip_key"])
        signer = x509.load_der_x509_certificate(tlv.find(signed, 0xA0))
        root = x509.load_pem_x509_certificate((self.profile / "country-signer.pem").read_bytes())
        root.public_key().verify(signer.signature, signer.tbs_certificate_bytes, ec.ECDSA(hashes.SHA256()))
        info = [value for tag, value in tlv.read(signed) if tag == 0x31][1]
        attributes, signature = tlv.find(info, 0x30, 0xA0), tlv.find(info, 0x30, 0x04)
        signer.public_key().verify(signature, tlv.put(0x31, attributes), ec.ECDSA(hashes.SHA256()))
        self.assertIn(hashlib.sha256(infos).digest(), attributes)

    def test_a_folder_that_is_there_is_left_alone(self):
        before = {path.name: path.read_bytes() for path in self.profile.iterdir()}
        ran = subprocess.run([TOOLS / "profile", self.profile], capture_output=True, text=True)
        self.assertEqual(ran.returncode, 2)
        self.assertNotIn("Traceback", ran.stderr)
        self.assertEqual(before, {path.name: path.read_bytes() for path in self.profile.iterdir()})

    def test_words_that_are_none(self):
        for words in (["--pin", "12345"], ["--can", "12345x"], ["--puk", "1"], ["--date", "20260230"], ["--date", "x"]):
            ran = subprocess.run([TOOLS / "profile", self.folder / "new", *words], capture_output=True, text=True)
            self.assertEqual((ran.returncode, "Traceback" in ran.stderr), (2, False), words)
            self.assertFalse((self.folder / "new").exists())


class Session(Place):
    def setUp(self):
        super().setUp()
        self.plan = self.make_profile()
        self.known = self.card()
        self.known.power_on()
        self.user = Terminal(self.known.transmit)

    def bytes_of(self, key):
        return bytes.fromhex(self.plan[key])

    def authenticated(self, birth):
        """PACE with the PIN and both authentications."""
        user, certificates = self.user, [bytes.fromhex(text) for text in self.plan["certificates"]]
        user.pace(terminal.PIN, self.plan["value"], self.bytes_of("template"))
        user.present(certificates)
        name = tlv.find(certificates[-1], 0x7F4E, 0x5F20)
        sent = terminal.auxiliary_data(birth=birth, community=self.bytes_of("community"))
        keys = user.terminal_authentication(name, self.bytes_of("terminal_secret"), sent)
        user.chip_authentication(*keys, self.bytes_of("chip_key"))
        user.select_application()
        return user

    def test_a_data_group_an_age_and_an_identifier(self):
        user = self.authenticated(self.plan["age"].encode())
        self.assertEqual((user.read(4), user.read(5)), (b"ERIKA", b"MUSTERMANN"))
        self.assertEqual((user.compare(terminal.BIRTH), user.compare(terminal.COMMUNITY)), (0x9000, 0x9000))
        chip = tomllib.loads((self.folder / "profile/chip.toml").read_text())
        agreed = curve.agree(bytes.fromhex(chip["ri_secret"]), self.bytes_of("sector"))
        identifier = user.identifier(terminal.sector_key(self.bytes_of("sector")))
        self.assertEqual(identifier, hashlib.sha256(agreed).digest())
        self.known.power_off()
        self.assert_repeats(self.sessions()[0])

    def test_who_is_too_young_is_no(self):
        self.assertEqual(self.authenticated(b"19900314").compare(terminal.BIRTH), 0x6300)

    def test_a_data_group_takes_both_authentications(self):
        self.user.pace(terminal.PIN, self.plan["value"], self.bytes_of("template"))
        with self.assertRaises(terminal.Refused) as refused:
            self.user.read(4)
        self.assertEqual(refused.exception.status, 0x6982)

    def test_a_signature_of_another_key_is_refused(self):
        certificates = [bytes.fromhex(text) for text in self.plan["certificates"]]
        self.user.pace(terminal.CAN, "654321", self.bytes_of("template"))
        changed = certificates[0][:-1] + bytes([certificates[0][-1] ^ 1])
        with self.assertRaises(terminal.Refused) as refused:
            self.user.present([changed])
        self.assertEqual(refused.exception.status, 0x6300)
        self.user.present(certificates)
        with self.assertRaises(terminal.Refused) as refused:
            self.user.terminal_authentication(b"DETESTTERM00001", curve.new_secret())
        self.assertEqual(refused.exception.status, 0x6300)

    def test_another_key_of_the_chip_is_found_out(self):
        self.plan["chip_key"] = curve.pair()[1].hex()
        with self.assertRaises(terminal.Untrue):
            self.authenticated(b"19900101")

    def test_the_link_brings_the_next_root(self):
        self.user.pace(terminal.CAN, "654321", self.bytes_of("template"))
        self.user.present([content((self.folder / "profile/link.cvcert").read_bytes())])
        self.assertEqual(bytes.fromhex(self.shown("current")), b"DETESTROOT00002")
        self.assertEqual(bytes.fromhex(self.shown("previous")), b"DETESTROOT00001")


class Dates(unittest.TestCase):
    def test_a_leap_day_has_a_year_later(self):
        import datetime

        from reader.profile import shifted

        self.assertEqual(shifted(datetime.datetime(2028, 2, 29), 1), datetime.datetime(2029, 2, 28))
        self.assertEqual(shifted(datetime.datetime(2028, 2, 29), 4), datetime.datetime(2032, 2, 29))
