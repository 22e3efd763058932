"""The report that an honest plan is promised: from the chip's record and the plan alone, without chip, channel or command."""

import hashlib
import re
from typing import Callable, Dict, Iterator, List, NamedTuple, Optional, Tuple

from promise.certificates import sector_hash
from promise.chip import Record
from promise.honesty import Trust, imported
from promise.model import agreed, point
from promise.plan import Plan

SUCCESS = "9000"
NO_POINT = "6a80"
BEHIND_TERMINAL = ("ca", "select")  # the steps behind terminal authentication
BITS = {"age": 0, "community": 1, "ri": 2}
CAN_ALLOWED = 4
GRANTABLE = (*range(29), *range(33, 38))
REFERENCES = {"age": 8, "validity": 3, "community": 18}  # the data group that each is compared with
DATE = re.compile(rb"[0-9]{4}(0[1-9]|1[0-2])(0[1-9]|[12][0-9]|3[01])")


class Situation(NamedTuple):
    """What a request meets behind the steps of an honest plan; `trust` is None where there are no certificates."""

    plan: Plan
    record: Record
    trust: Optional[Trust]

    def templates(self) -> Dict[str, bytes]:
        """The four templates that have to have a right, by whose they are."""
        trust = self.trust
        return {
            "the holder": self.plan.template,
            "the trust point": trust.root,
            "the verifier": trust.verifier.template,
            "the terminal": trust.terminal.template,
        }

    def granted(self, bit: int) -> bool:
        return bit in GRANTABLE and all(has_bit(template, bit) for template in self.templates().values())

    def group(self, request: str) -> Optional[bytes]:
        return self.record.groups.get(int(request[2:]))

    def reference(self, request: str) -> Optional[bytes]:
        return self.record.groups.get(REFERENCES[request])


def has_bit(template: bytes, bit: int) -> bool:
    return bool(int.from_bytes(template, "big") >> bit & 1)


def is_group(request: str) -> bool:
    return request.startswith("dg")


def is_comparison(request: str) -> bool:
    return request in REFERENCES


def bit_of(request: str) -> Optional[int]:
    """The right that a request takes; document validity takes none."""
    return 7 + int(request[2:]) if is_group(request) else BITS.get(request)


# ---- the rules that a request may fail, by their numbers


def terminal_is_known(at: Situation, request: str) -> bool:
    return at.trust is not None


def password_gives_rights(at: Situation, request: str) -> bool:
    return at.plan.password == "pin" or (at.plan.password == "can" and at.granted(CAN_ALLOWED))


def right_is_granted(at: Situation, request: str) -> bool:
    bit = bit_of(request)
    return bit is None or at.granted(bit)


def is_announced(at: Situation, request: str) -> bool:
    return not is_comparison(request) or request in at.plan.announced


def has_reference(at: Situation, request: str) -> bool:
    """Dates have to be dates, a community has to have a byte."""
    if not is_comparison(request):
        return True
    stored = at.reference(request)
    return bool(stored) and (request == "community" or DATE.fullmatch(stored) is not None)


def comparison_is_yes(at: Situation, request: str) -> bool:
    if not is_comparison(request):
        return True
    stored, sent = at.reference(request), at.plan.announced[request]
    if request == "age":
        return stored <= sent
    return stored >= sent if request == "validity" else stored.startswith(sent)


def file_is_present(at: Situation, request: str) -> bool:
    return not is_group(request) or at.group(request) is not None


def sector_is_the_terminals(at: Situation, request: str) -> bool:
    return request != "ri" or at.trust.terminal.sector == sector_hash(at.plan.sector)


class Rule(NamedTuple):
    number: int
    status: str
    holds: Callable[[Situation, str], bool]


# Of the rules that concern a request, rule 32 holds behind `select 9000`, and 38 because data groups are read from the front.
RULES = (
    Rule(26, "6982", terminal_is_known),
    Rule(31, "6982", password_gives_rights),
    Rule(33, "6982", right_is_granted),
    Rule(34, "6a88", is_announced),
    Rule(35, "6a88", has_reference),
    Rule(36, "6300", comparison_is_yes),
    Rule(37, "6a82", file_is_present),
    Rule(40, "6300", sector_is_the_terminals),
)


def first_failed(at: Situation, request: str) -> Optional[Rule]:
    return next((rule for rule in RULES if not rule.holds(at, request)), None)


# ---- the report


def content(at: Situation, request: str) -> bytes:
    """What an answered request brings."""
    if is_group(request):
        return at.group(request)
    return hashlib.sha256(agreed(at.record.ri_secret, at.plan.sector)).digest() if request == "ri" else b""


def outcomes(at: Situation) -> Iterator[Tuple[str, Optional[Rule]]]:
    """Each request with the first rule that it fails, if any."""
    return ((request, first_failed(at, request)) for request in at.plan.requests)


def result_line(at: Situation, request: str, failed: Optional[Rule]) -> str:
    if failed is not None:
        return f"{request} {failed.status}"
    if request == "ri" and agreed(at.record.ri_secret, at.plan.sector) is None:
        return f"{request} {NO_POINT}"
    return f"{request} {SUCCESS} {content(at, request).hex()}".rstrip()


def situation(plan: Plan, record: Record) -> Situation:
    return Situation(plan, record, imported(plan, record).trust if plan.certificates else None)


def comes_to_no_point(plan: Plan, record: Record) -> bool:
    """Whether a question that is sure to be put comes to no point: it stops chip authentication, or is the answer to `ri`.

    What the random bytes of PACE come to is not known here; no point is among it once in 2^60 sessions or so.
    """
    if not plan.certificates:
        return False
    at = situation(plan, record)
    identified = any(request == "ri" and failed is None for request, failed in outcomes(at))
    return agreed(record.ca_secret, point(1)) is None or (identified and agreed(record.ri_secret, plan.sector) is None)


def step_lines(plan: Plan) -> List[str]:
    steps = ["pace"] * (1 if plan.can_first is None else 2)
    steps += ["ta", *BEHIND_TERMINAL] if plan.certificates else []
    return [f"{step} {SUCCESS}" for step in steps]


def promised_report(plan: Plan, record: Record) -> str:
    """The report of an honest plan. Where the chip's secret agrees on no point, chip authentication is the last step."""
    steps = step_lines(plan)
    if plan.certificates and agreed(record.ca_secret, point(1)) is None:
        lines = steps[: -len(BEHIND_TERMINAL)] + [f"stopped ca {NO_POINT}"]
    else:
        at = situation(plan, record)
        lines = steps + [result_line(at, *outcome) for outcome in outcomes(at)]
    return "".join(f"{line}\n" for line in lines)
