"""A chip that reader software accepts, with a terminal that it knows: keys, certificates, and the files of them."""

import calendar

from cryptography.hazmat.primitives import serialization

from reader import certificates, curve, security
from reader.terminal import sector_key

NOTICE = "Test data: keys and certificates of a simulated chip, made by tools/profile. They prove nothing about anyone."
ROOT, VERIFIER, TERMINAL = "FE1FFFFF37", "BE1FFFFF37", "3E1FFFFF37"
LONGEST_FILE = 2048
YEARS = 1


class Profile:
    """New keys for a chip and for the terminals that it trusts, from this day on."""

    def __init__(self, passwords, today):
        self.passwords = passwords
        self.today = today
        self.root = certificates.Holder(b"DETESTROOT00001", bytes.fromhex(ROOT))
        self.next_root = certificates.Holder(b"DETESTROOT00002", bytes.fromhex(ROOT))
        self.verifier = certificates.Holder(b"DETESTDV00001", bytes.fromhex(VERIFIER))
        self.terminal = certificates.Holder(b"DETESTTERM00001", bytes.fromhex(TERMINAL))
        self.chip_secret, self.identification_secret = curve.new_secret(), curve.new_secret()
        self.sector_secret = curve.new_secret()
        self.signer = security.Signer(today, 366 * YEARS)
        self.card_access = security.card_access()
        self.card_security = self.signer.sign(security.security_infos(self.chip_point))
        if len(self.card_security) > LONGEST_FILE:
            raise ValueError(f"EF.CardSecurity has {len(self.card_security)} bytes, and the chip keeps {LONGEST_FILE}")

    @property
    def chip_point(self):
        return curve.public_point(self.chip_secret)

    @property
    def sector(self):
        return curve.public_point(self.sector_secret)

    def day(self, years=0):
        return six_digits(shifted(self.today, years))

    def issued(self):
        """The certificates by the names of their files. All count for a year, and each has TEST in its names."""
        days = (self.day(), self.day(YEARS))
        sector = sector_key(self.sector)
        return {
            "root.cvcert": certificates.issue(self.root, self.root, *days, has_parameters=True),
            "link.cvcert": certificates.issue(self.root, self.next_root, *days, has_parameters=True),
            "verifier.cvcert": certificates.issue(self.root, self.verifier, *days),
            "terminal.cvcert": certificates.issue(self.verifier, self.terminal, *days, sector=sector),
        }

    def files(self):
        """The bytes of each file by its name."""
        issued = self.issued()
        return {
            **issued,
            "chip.toml": self.chip().encode(),
            "terminal.toml": self.plan(issued).encode(),
            "secrets.toml": self.secrets().encode(),
            "terminal.pem": pem(key_pem(self.terminal.secret), "The terminal's key."),
            "country-signer.pem": pem(self.signer.root.public_bytes(serialization.Encoding.PEM), SIGNER_NOTE),
            "README.txt": README.encode(),
        }

    def chip(self):
        return table(
            "What `eid make` reads.",
            **self.passwords,
            date=self.day(),
            trust_name=self.root.name.decode(),
            trust_template=ROOT,
            trust_key=self.root.point,
            ca_secret=self.chip_secret,
            ri_secret=self.identification_secret,
            card_access=self.card_access,
            card_security=self.card_security,
            **self.data_groups(),
        )

    def data_groups(self):
        """An invented holder: the date of expiry, names, the date of birth, an address and a community."""
        expiry = shifted(self.today, 10).strftime("%Y%m%d").encode()
        names = {"dg4": b"ERIKA", "dg5": b"MUSTERMANN"}
        place = {"dg17": b"TESTSTRASSE 1".ljust(32), "dg18": bytes.fromhex("02761100000000")}
        return {"dg3": expiry, **names, "dg8": b"19900315", **place}

    def plan(self, issued):
        chain = [certificates.content(issued[name]) for name in ("verifier.cvcert", "terminal.cvcert")]
        return table(
            "What a terminal has: the keys are those of the plans of `eid session`.",
            password="pin",
            value=self.passwords["pin"],
            template=TERMINAL,
            certificates=chain,
            terminal_secret=self.terminal.secret,
            chip_key=self.chip_point,
            age=shifted(self.today, -18).strftime("%Y%m%d"),
            community=bytes.fromhex("027611"),
            sector=self.sector,
            requests=["dg4", "dg5", "age", "community", "ri"],
        )

    def secrets(self):
        """The secrets behind the certificates, to issue more of them."""
        return table(
            "Secrets of those who issue certificates, and of a sector.",
            root_secret=self.root.secret,
            next_root_secret=self.next_root.secret,
            verifier_secret=self.verifier.secret,
            terminal_secret=self.terminal.secret,
            sector_secret=self.sector_secret,
        )


SIGNER_NOTE = "The certificate by which EF.CardSecurity is verified."
README = f"""{NOTICE}

chip.toml           configuration of the chip: eid make chip.toml image.bin
root.cvcert         certificate of the chip's trust point, signed by itself
link.cvcert         a link to the next root
verifier.cvcert     certificate of the document verifier
terminal.cvcert     certificate of the terminal, which may do what its template says
terminal.pem        the terminal's key
terminal.toml       the terminal's certificates and keys, as text
secrets.toml        the secrets of the roots, of the verifier, of the terminal and of a sector
country-signer.pem  certificate by which the signature of EF.CardSecurity is verified

All keys are on brainpoolP256r1. Each .cvcert is an object 7F21; the chip is sent what stands in it.
"""


def shifted(day, years):
    """The same day some years later; a 29th of February becomes the 28th where there is none."""
    year = day.year + years
    return day.replace(year=year, day=min(day.day, calendar.monthrange(year, day.month)[1]))


def six_digits(day):
    return day.strftime("%y%m%d")


def table(what, **values):
    """A flat TOML table; bytes are texts of hexadecimal digits."""
    lines = [f"# {NOTICE}", f"# {what}", *(f"{key} = {shown(value)}" for key, value in values.items())]
    return "\n".join(lines) + "\n"


def shown(value):
    if isinstance(value, list):
        return "[" + ", ".join(map(shown, value)) + "]"
    return f'"{value.hex() if isinstance(value, bytes) else value}"'


def key_pem(secret):
    form, plain = serialization.PrivateFormat.PKCS8, serialization.NoEncryption()
    return curve.private_key(secret).private_bytes(serialization.Encoding.PEM, form, plain)


def pem(content, what):
    """Readers of PEM pass over what stands before it."""
    return f"{NOTICE}\n{what}\n\n".encode() + content
