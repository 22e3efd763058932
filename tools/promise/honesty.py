"""When the plan of a terminal is honest for a chip: line by line, over what the chip keeps and what the terminal has.

An honest plan is promised its report (report.py). Each line here has a name, and those that a plan breaks are told by it.
"""

from typing import Callable, Dict, List, NamedTuple, Optional

from promise.certificates import CVCA, OFFICIAL, TERMINAL, Certificate
from promise.chip import Party, Record
from promise.model import public_point, signature_of
from promise.plan import Plan

LAST_NUMBER = 4_294_967_293  # the greatest commit number from which a commit is made
COMMITS_OF_PIN = 2


class Trust:
    """Whom a chip trusts while certificates are imported, and what is known of those whose certificates were."""

    def __init__(self, record: Record):
        self.current, self.previous, self.date = record.current, record.previous, record.date
        self.root: Optional[bytes] = None  # the template of the trust point that signed the verifier, as it was then
        self.verifier: Optional[Certificate] = None
        self.terminal: Optional[Certificate] = None

    def trust_point(self, name: bytes) -> Optional[Party]:
        """The current one comes first."""
        return next((point for point in (self.current, self.previous) if point and point.name == name), None)

    def signer(self, name: bytes) -> Optional[Party]:
        """A trust point comes before the document verifier accepted last."""
        verifier = self.verifier
        if self.trust_point(name) is None and verifier is not None and verifier.holder == name:
            return Party(verifier.holder, verifier.template, verifier.key)
        return self.trust_point(name)

    def take(self, certificate: Certificate) -> None:
        """What an accepted certificate changes."""
        official = certificate.role != TERMINAL or self.verifier.role == OFFICIAL
        if certificate.is_verifier:
            self.root = self.trust_point(certificate.issuer).template
            self.verifier, self.terminal = certificate, None
        elif certificate.is_terminal:
            self.terminal = certificate
        elif certificate.holder != self.current.name:
            self.previous = self.current
            self.current = Party(certificate.holder, certificate.template, certificate.key)
        if official:
            self.date = max(self.date, certificate.effective)


# ---- what a certificate has to meet, in the order in which the chip looks


def issuer_is_known(trust: Trust, certificate: Certificate) -> bool:
    return trust.signer(certificate.issuer) is not None


def signer_may_sign(trust: Trust, certificate: Certificate) -> bool:
    """Trust points sign links and verifiers, a verifier signs terminals."""
    by_trust_point = trust.trust_point(certificate.issuer) is not None
    return by_trust_point != certificate.is_terminal


def link_is_of_the_current(trust: Trust, certificate: Certificate) -> bool:
    """No link leads from the previous trust point to a new one."""
    return certificate.role != CVCA or trust.current.name in (certificate.issuer, certificate.holder)


def is_not_expired(trust: Trust, certificate: Certificate) -> bool:
    """Links may have expired."""
    return certificate.is_link or certificate.expiry >= trust.date


def is_signed(trust: Trust, certificate: Certificate) -> bool:
    return certificate.signature == signature_of(trust.signer(certificate.issuer).key, certificate.digest)


CONDITIONS: Dict[str, Callable[[Trust, Certificate], bool]] = {
    "issuer": issuer_is_known,
    "role": signer_may_sign,
    "link": link_is_of_the_current,
    "expiry": is_not_expired,
    "signature": is_signed,
}


def refusal(trust: Trust, certificate: Certificate) -> Optional[str]:
    """The first condition that a certificate does not meet."""
    return next((name for name, holds in CONDITIONS.items() if not holds(trust, certificate)), None)


class Path(NamedTuple):
    """Certificates imported one after the other, up to the first that is refused."""

    trust: Trust
    refused_by: Optional[str]


def imported(plan: Plan, record: Record) -> Path:
    trust = Trust(record)
    for certificate in plan.certificates:
        refused_by = refusal(trust, certificate)
        if refused_by is not None:
            return Path(trust, refused_by)
        trust.take(certificate)
    return Path(trust, None)


# ---- the lines


def can_first_is_right(plan: Plan, record: Record) -> bool:
    return plan.can_first in (None, record.passwords["can"])


def value_is_right(plan: Plan, record: Record) -> bool:
    return plan.value == record.passwords[plan.password]


def pin_is_active(plan: Plan, record: Record) -> bool:
    return plan.password != "pin" or record.active


def a_try_is_left(plan: Plan, record: Record) -> bool:
    return plan.password != "pin" or record.tries > 0


def last_try_follows_the_can(plan: Plan, record: Record) -> bool:
    return plan.password != "pin" or record.tries != 1 or plan.can_first is not None


def template_is_sent(plan: Plan, record: Record) -> bool:
    return not plan.certificates or plan.template is not None


def meets(condition: str) -> Callable[[Plan, Record], bool]:
    """No certificate is refused by this condition."""
    return lambda plan, record: imported(plan, record).refused_by != condition


def last_is_a_terminal(plan: Plan, record: Record) -> bool:
    return not plan.certificates or plan.certificates[-1].is_terminal


def terminal_has_its_key(plan: Plan, record: Record) -> bool:
    """Asked only of a terminal's certificate, so that another one at the end breaks one line."""
    last = plan.certificates[-1] if plan.certificates else None
    return last is None or not last.is_terminal or last.key == public_point(plan.terminal_secret)


def chip_key_is_the_chips(plan: Plan, record: Record) -> bool:
    return not plan.certificates or plan.chip_key == public_point(record.ca_secret)


def commit_numbers_are_left(plan: Plan, record: Record) -> bool:
    """As many as a session could ever take: each certificate may move the date or bring a trust point."""
    return record.number + COMMITS_OF_PIN + len(plan.certificates) <= LAST_NUMBER


LINES: Dict[str, Callable[[Plan, Record], bool]] = {
    "can first": can_first_is_right,
    "value": value_is_right,
    "active": pin_is_active,
    "try": a_try_is_left,
    "last try": last_try_follows_the_can,
    "template": template_is_sent,
    **{condition: meets(condition) for condition in CONDITIONS},
    "terminal": last_is_a_terminal,
    "terminal key": terminal_has_its_key,
    "chip key": chip_key_is_the_chips,
    "numbers": commit_numbers_are_left,
}


def broken_lines(plan: Plan, record: Record) -> List[str]:
    """The names of the lines that do not hold: none of an honest plan."""
    return [name for name, holds in LINES.items() if not holds(plan, record)]
