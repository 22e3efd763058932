"""What drawn plans have to show between them, so that each part of a promise is looked at."""

from typing import Dict, FrozenSet, Iterator, Set

from promise.certificates import CVCA, OFFICIAL, TERMINAL
from promise.chip import GROUPS, Record
from promise.drawing import COUNTS, PASSWORDS
from promise.honesty import COMMITS_OF_PIN, LAST_NUMBER, Trust
from promise.plan import Plan
from promise.report import Situation, bit_of, first_failed, has_bit, is_comparison, is_group, situation

HOLDERS = ("the holder", "the trust point", "the verifier", "the terminal")
COMPARISONS = ("age", "validity", "community")
KINDS = ("a data group", *COMPARISONS, "ri")
REFUSALS = {
    26: KINDS,
    31: KINDS,
    33: ("a data group", "age", "community", "ri"),
    34: COMPARISONS,
    35: COMPARISONS,
    36: COMPARISONS,
    37: ("a data group",),
    40: ("ri",),
}
WANTED: FrozenSet[str] = frozenset(
    [
        *(f"the {password}{' behind the CAN' if can_first else ''}" for password, can_first in PASSWORDS),
        *(f"{count} certificates" for count in COUNTS),
        *(f"{request} answered" for request in (*(f"dg{n}" for n in GROUPS), *COMPARISONS, "ri")),
        *(f"{kind} refused by rule {rule}" for rule, kinds in REFUSALS.items() for kind in kinds),
        *(f"a right that {whose} alone lacks" for whose in HOLDERS),
        "the right to the CAN is lacking",
        "an empty data group answered",
        "a data group of 2,048 bytes answered",
        *(f"{request} on the day itself" for request in ("age", "validity")),
        *(f"{request} a day off, refused" for request in ("age", "validity")),
        "the whole community",
        "more than the community",
        "a chip with a previous trust point",
        "a link",
        "two links",
        "an expired link",
        "a link in the name of the current trust point",
        "such a link by the previous one",
        "two verifiers",
        "two terminals",
        "a new trust point behind the verifier",
        "a terminal before another verifier",
        "a verifier by the previous trust point",
        "a terminal of an official verifier",
        "a terminal of another verifier",
        "a certificate that expires on the day",
        "a terminal that does not move the date",
        "the last try",
        "two tries",
        "no try, and not with the PIN",
        "an inactive PIN, and not with the PIN",
        "the greatest number",
    ]
)


def kind_of(request: str) -> str:
    return "a data group" if is_group(request) else request


def of_chip(plan: Plan, record: Record) -> Iterator[str]:
    by_pin = plan.password == "pin"
    yield f"the {plan.password}{' behind the CAN' if plan.can_first is not None else ''}"
    yield f"{len(plan.certificates)} certificates"
    if record.previous is not None:
        yield "a chip with a previous trust point"
    if by_pin and record.tries < 3:
        yield "the last try" if record.tries == 1 else "two tries"
    if not by_pin and record.tries == 0:
        yield "no try, and not with the PIN"
    if not record.active:
        yield "an inactive PIN, and not with the PIN"
    if record.number + COMMITS_OF_PIN + len(plan.certificates) == LAST_NUMBER:
        yield "the greatest number"


def of_certificates(plan: Plan, record: Record) -> Iterator[str]:
    """What is seen while the certificates are imported."""
    trust, count = Trust(record), {CVCA: 0, OFFICIAL: 0, TERMINAL: 0}
    for certificate in plan.certificates:
        kind = OFFICIAL if certificate.is_verifier else certificate.role
        count[kind] += 1
        by_previous = trust.trust_point(certificate.issuer) == trust.previous
        if certificate.is_link:
            yield "an expired link" if certificate.expiry < trust.date else "a link"
            if certificate.holder != trust.current.name and trust.verifier is not None:
                yield "a new trust point behind the verifier"
            if certificate.holder == trust.current.name:
                yield "such a link by the previous one" if by_previous else "a link in the name of the current trust point"
        elif certificate.expiry == trust.date:
            yield "a certificate that expires on the day"
        if certificate.is_verifier and by_previous:
            yield "a verifier by the previous trust point"
        if certificate.is_verifier and trust.terminal is not None:
            yield "a terminal before another verifier"
        if certificate.is_terminal:
            is_official = trust.verifier.role == OFFICIAL
            yield "a terminal of an official verifier" if is_official else "a terminal of another verifier"
            if not is_official and certificate.effective > trust.date:
                yield "a terminal that does not move the date"
        trust.take(certificate)
    for kind, words in ((CVCA, "two links"), (OFFICIAL, "two verifiers"), (TERMINAL, "two terminals")):
        if count[kind] > 1:
            yield words


def of_comparison(at: Situation, request: str, failed) -> Iterator[str]:
    stored, sent = at.reference(request), at.plan.announced.get(request)
    if failed is not None and failed.number != 36:
        return
    if request == "community":
        if stored == sent:
            yield "the whole community"
        elif sent.startswith(stored):
            yield "more than the community"
    elif stored == sent:
        yield f"{request} on the day itself"
    elif failed is not None and abs(int(stored) - int(sent)) == 1:
        yield f"{request} a day off, refused"


def of_lacking_rights(at: Situation, request: str, number: int) -> Iterator[str]:
    """Which template it is that lacks a right."""
    if number == 31 and at.plan.password == "can":
        yield "the right to the CAN is lacking"
    if number == 33:
        lacking = [whose for whose, template in at.templates().items() if not has_bit(template, bit_of(request))]
        if len(lacking) == 1:
            yield f"a right that {lacking[0]} alone lacks"


def of_requests(at: Situation) -> Iterator[str]:
    for request in at.plan.requests:
        failed = first_failed(at, request)
        if failed is None:
            yield f"{request} answered"
            if is_group(request) and len(at.group(request)) in SIZES:
                yield SIZES[len(at.group(request))]
        else:
            yield f"{kind_of(request)} refused by rule {failed.number}"
            yield from of_lacking_rights(at, request, failed.number)
        if is_comparison(request):
            yield from of_comparison(at, request, failed)


SIZES: Dict[int, str] = {0: "an empty data group answered", 2048: "a data group of 2,048 bytes answered"}


def seen(plan: Plan, record: Record) -> Set[str]:
    """What of that which is wanted a plan shows, and more."""
    return {*of_chip(plan, record), *of_certificates(plan, record), *of_requests(situation(plan, record))}
