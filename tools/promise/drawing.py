"""Honest plans, each with a chip of its own, drawn from a number.

Passwords and the count of certificates follow the number, so that each goes with each; the rest is drawn.
"""

import random
from dataclasses import dataclass
from typing import Any, Dict, List, Optional

from promise import honesty
from promise.certificates import CVCA, OFFICIAL, OTHER, TERMINAL, issue, read_certificate, sector_hash
from promise.chip import GROUPS, Party, Record, digits, record_of_configuration
from promise.honesty import Trust
from promise.model import MODULUS, point, public_point
from promise.plan import Plan, plan_of

PASSWORDS = [(password, can_first) for password in ("pin", "can", "puk") for can_first in (False, True)]
COUNTS = (0, 2, 3, 4, 5, 6, 7, 8)  # of certificates: one alone is never honest, as only a verifier's terminal ends them
LINK, VERIFIER, LAST = "link", "verifier", "terminal"
ROLES = {LINK: (CVCA,), VERIFIER: (OFFICIAL, OTHER), LAST: (TERMINAL,)}
NAMES = {
    LINK: (b"DECVCAAT00001", b"DECVCAAT00002", b"DECVCAAT00003", b"DESAME", b"X"),
    VERIFIER: (b"DETESTDV00001", b"DETESTDV00002", b"DESAME", b"DEDV567890123456"),
    LAST: (b"DETERMAT00001", b"DETERMAT00002", b"DESAME", b"T"),
}
COUNTED = (0, 1, 2, 4, *range(8, 29))  # the bits that decide about requests
REQUESTS = (*(f"dg{n}" for n in GROUPS), *("age", "validity", "community", "ri") * 4)
SIZES = (0, 1, 5, 255, 256, 257, 700, 2048)
NO_DATES = (b"", b"1990031", b"199003151", b"19901315", b"19900332", b"1990031x", b"00000000")
DRAWS = 2000


@dataclass(frozen=True)
class Drawn:
    """A chip and the plan of a terminal, as the files that they are made of, and as what these say."""

    chip: str
    terminal: str
    start: int
    record: Record
    plan: Plan


def text_of(value: Any) -> str:
    """A value of a TOML table; bytes are texts of hexadecimal digits."""
    if isinstance(value, bool):
        return str(value).lower()
    if isinstance(value, list):
        return "[" + ", ".join(map(text_of, value)) + "]"
    return f'"{value}"' if isinstance(value, str) else str(value)


def table_text(table: Dict[str, Any]) -> str:
    return "".join(f"{key} = {text_of(value)}\n" for key, value in table.items())


class Drawing:
    """What is drawn for one number."""

    def __init__(self, number: int):
        self.random = random.Random(number)
        self.password, self.can_first = PASSWORDS[number % len(PASSWORDS)]
        self.count = COUNTS[number // len(PASSWORDS) % len(COUNTS)]
        self.keys = {}  # the secrets by the points that they have

    # ---- small things

    def happens(self, chance: float) -> bool:
        return self.random.random() < chance

    def bytes(self, size: int) -> bytes:
        return self.random.getrandbits(8 * size).to_bytes(size, "big") if size else b""

    def decimal(self, size: int) -> str:
        return f"{self.random.randrange(10**size):0{size}}"

    def date(self, first: int, last: int) -> str:
        """A day from the 2nd to the 30th, so that those beside it are dates too."""
        year, month, day = (self.random.randint(*bounds) for bounds in ((first, last), (1, 12), (2, 30)))
        return f"{year}{month:02}{day:02}"

    def day_beside(self, date: str) -> str:
        return f"{int(date) + self.random.choice((-1, 0, 1))}"

    def secret(self) -> bytes:
        """What stands before the last eight bytes does not count."""
        number = self.random.choice((self.random.randrange(1, 1000), self.random.randrange(1, MODULUS)))
        front = self.bytes(24) if self.happens(0.2) else bytes(24)
        return front + number.to_bytes(8, "big")

    def key(self) -> bytes:
        """The point of a new secret."""
        secret = self.secret()
        self.keys[public_point(secret)] = secret
        return public_point(secret)

    def template(self, role: int = TERMINAL) -> bytes:
        """Nearly all rights, so that often one template alone lacks one."""
        rights = (1 << 38) - 1
        if self.happens(0.1):
            rights = self.random.getrandbits(38)
        elif self.happens(0.6):
            for _ in range(self.random.randint(1, 5)):
                rights &= ~(1 << self.random.choice(COUNTED))
        return (role << 38 | rights).to_bytes(5, "big")

    # ---- the chip

    def tries(self) -> int:
        """With the PIN at least one, and two where the CAN does not come first."""
        least = 0 if self.password != "pin" else 1 if self.can_first else 2
        return self.random.randint(least, 3)

    def group(self) -> bytes:
        return self.bytes(self.random.choice(SIZES[:-2] if self.happens(0.8) else SIZES))

    def groups(self) -> Dict[str, str]:
        found = {f"dg{n}": self.group() for n in GROUPS if self.happens(0.75)}
        for key, years in (("dg3", (2026, 2036)), ("dg8", (1930, 2020))):
            if self.happens(0.9):
                found[key] = self.random.choice(NO_DATES) if self.happens(0.1) else self.date(*years).encode()
        if self.happens(0.85):
            found["dg18"] = self.bytes(self.random.choice((0, 1, 3, 7, 16, 40)))
        return {key: found[key].hex() for key in sorted(found)}

    def trust_point(self, which: str) -> Dict[str, str]:
        name = self.random.choice(NAMES[LINK]).decode()
        return {f"{which}_name": name, f"{which}_template": self.template(CVCA).hex(), f"{which}_key": self.key().hex()}

    def number(self) -> int:
        most = honesty.LAST_NUMBER - honesty.COMMITS_OF_PIN - self.count
        return self.random.choice((0, 0, self.random.randrange(most), most))

    def configuration(self) -> Dict[str, Any]:
        return {
            "number": self.number(),
            "pin": self.decimal(6),
            "can": self.decimal(6),
            "puk": self.decimal(10),
            "tries": self.tries(),
            "active": self.password == "pin" or self.happens(0.5),
            "date": self.date(2024, 2027)[2:],
            **self.trust_point("trust"),
            **(self.trust_point("previous") if self.happens(0.4) else {}),
            "ca_secret": self.secret().hex(),
            "ri_secret": self.secret().hex(),
            "card_access": "3100",
            "card_security": "3000",
            **self.groups(),
        }

    # ---- the certificates

    def kind(self, left: int) -> str:
        """The last one is a terminal's; before that any may come."""
        return LAST if left == 1 else self.random.choice((LINK, VERIFIER, VERIFIER, LAST))

    def issuer(self, trust: Trust) -> Party:
        known = [party for party in (trust.current, trust.previous) if party is not None]
        if trust.verifier is not None:
            known.append(Party(trust.verifier.holder, trust.verifier.template, trust.verifier.key))
        return self.random.choice(known)

    def candidate(self, trust: Trust, kind: str, sector: bytes) -> bytes:
        """A certificate that may be accepted or not."""
        issuer = self.issuer(trust)
        dates = (self.date(2023, 2027)[2:], self.date(2024, 2030)[2:])
        effective, expiry = map(digits, dates)
        return issue(
            issuer.key,
            issuer.name,
            self.random.choice(NAMES[kind]),
            self.key(),
            self.template(self.random.choice(ROLES[kind])),
            effective,
            trust.date if self.happens(0.2) else expiry,
            self.sectors(sector) if kind == LAST else (),
        )

    def sectors(self, sector: bytes) -> List[Optional[bytes]]:
        """The right one comes first, or second, or not at all."""
        right, other = sector_hash(sector), self.bytes(32)
        return self.random.choice(((right,), (right, other), (right, None), (other, right), (None, right), ()))

    def certificates(self, record: Record, sector: bytes) -> List[bytes]:
        """As many as are wanted, each one accepted; candidates that would not be are drawn anew."""
        trust, found = Trust(record), []
        while len(found) < self.count:
            found.append(self.accepted(trust, self.count - len(found), sector))
        return found

    def accepted(self, trust: Trust, left: int, sector: bytes) -> bytes:
        for _ in range(DRAWS):
            data = self.candidate(trust, self.kind(left), sector)
            certificate = read_certificate(data)
            if honesty.refusal(trust, certificate) is None and (left != 2 or leads_to_a_terminal(trust, certificate)):
                trust.take(certificate)
                return data
        raise AssertionError("no certificate that is accepted was drawn")

    # ---- the terminal

    def announcements(self, record: Record) -> Dict[str, str]:
        """Days at and beside those that the chip has; of a community a front, the whole, more, or another."""
        found = {}
        for key, group in (("age", 8), ("validity", 3)):
            stored = record.groups.get(group, b"")
            is_date = len(stored) == 8 and stored.isdigit() and stored not in NO_DATES
            if self.happens(0.85):
                found[key] = self.day_beside(stored.decode()) if is_date else self.date(1950, 2030)
        stored = record.groups.get(18, b"")
        if self.happens(0.85):
            community = self.random.choice((stored, stored[:3], stored[:1], stored + b"\0", self.bytes(3)))[:16]
            found["community"] = (community or b"\2").hex()
        return found

    def requests(self, sector: bool) -> List[str]:
        count = self.random.randint(0 if self.happens(0.1) else 4, 32)
        drawn = [self.random.choice(REQUESTS) for _ in range(count)]
        return [request for request in drawn if sector or request != "ri"]

    def terminal(self, configuration: Dict[str, Any], record: Record) -> Dict[str, Any]:
        sector = point(self.random.choice((1, 1001, self.random.randrange(1, MODULUS) | 1)))
        certificates = self.certificates(record, sector)
        key = read_certificate(certificates[-1]).key if certificates else self.key()
        has_sector = self.happens(0.9)
        return {
            **({"can_first": configuration["can"]} if self.can_first else {}),
            "password": self.password,
            "value": configuration[self.password],
            **({"template": self.template().hex()} if certificates or self.happens(0.5) else {}),
            "certificates": [data.hex() for data in certificates],
            "terminal_secret": self.keys[key].hex(),
            "chip_key": public_point(record.ca_secret).hex(),
            **self.announcements(record),
            **({"sector": sector.hex()} if has_sector else {}),
            "requests": self.requests(has_sector),
        }

    def drawn(self) -> Drawn:
        configuration = self.configuration()
        record = record_of_configuration(configuration)
        terminal = self.terminal(configuration, record)
        start = self.random.choice((0, MODULUS - 1, self.random.randrange(MODULUS)))
        return Drawn(table_text(configuration), table_text(terminal), start, record, plan_of(terminal))


def leads_to_a_terminal(trust: Trust, certificate) -> bool:
    """Whether a verifier that can sign a terminal is known once this certificate is accepted."""
    if certificate.is_verifier:
        return trust.trust_point(certificate.holder) is None
    if trust.verifier is None:
        return False
    hides = certificate.is_link and certificate.holder == trust.verifier.holder
    return not hides and trust.trust_point(trust.verifier.holder) is None


def drawn(number: int) -> Drawn:
    return Drawing(number).drawn()
