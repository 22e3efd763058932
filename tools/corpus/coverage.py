"""Whether the cases meet all that can be met: rules, pairs of a kind and a rule, and statuses."""

import fnmatch
import pathlib
from dataclasses import dataclass
from typing import Dict, Iterator, List, Set, Tuple

from corpus.meeting import Corpus, Met
from telling.kinds import ALL, CONCERNED, KINDS, STATUSES, TOKEN
from telling.tables import STATUSES as WORDS

Pair = Tuple[str, int]
EVERY_KIND = "every kind"
# How many cases meet a rule at the least.
LEAST = 3
# A refusal that has one of several statuses.
WRONG_TOKEN = (55, (0x6300, 0x63C2, 0x63C1, 0x63C0))


@dataclass
class Reason:
    """Why no script meets some pairs."""

    rules: List[int]
    kinds: List[str]
    why: str

    def pairs(self) -> Iterator[Pair]:
        return ((kind, rule) for rule in self.rules for kind in self.kinds)


class BadList(Exception):
    """The list of the pairs that no script meets is none."""


def kinds_named(text: str) -> List[str]:
    """The kinds that a line means."""
    if text == EVERY_KIND:
        return list(KINDS)
    found = [kind for kind in ALL if fnmatch.fnmatchcase(kind, text)]
    if not found:
        raise BadList(f"no kind is {text!r}")
    return found


def read_reasons(text: str) -> List[Reason]:
    """The paragraphs of a list."""
    reasons = []
    for paragraph in text.split("\n\n"):
        lines = [line.partition(": ") for line in paragraph.splitlines() if line and not line.startswith("#")]
        if not lines:
            continue
        keys = [key for key, _, _ in lines]
        if keys != ["rules", *["kind"] * (len(lines) - 2), "why"] or len(lines) < 3:
            raise BadList(f"expected `rules`, `kind` and `why`, found {', '.join(keys)}")
        kinds = [kind for _, _, text in lines[1:-1] for kind in kinds_named(text)]
        reasons.append(Reason([int(number) for number in lines[0][2].split()], kinds, lines[-1][2]))
    return reasons


def concerned_pairs() -> Set[Pair]:
    return {(kind, rule) for rule, kinds in CONCERNED.items() for kind in kinds}


def cases_by(corpus: Corpus, *names: str) -> Dict[tuple, List[str]]:
    """The cases by these fields of the commands that they meet."""
    groups: Dict[tuple, Dict[str, None]] = {}
    for met in corpus.met:
        groups.setdefault(tuple(getattr(met, name) for name in names), {})[met.case] = None
    return {key: list(cases) for key, cases in groups.items()}


# ---- what is wrong


def pair_words(pair: Pair) -> str:
    return f"rule {pair[1]} for {pair[0]}"


def complaints(corpus: Corpus, reasons: List[Reason]) -> Iterator[str]:
    """All that the cases lack, and all that they meet and should not."""
    yield from complaints_of_pairs(corpus.met, reasons)
    by_rule = cases_by(corpus, "rule")
    for rule in CONCERNED:
        found = len(by_rule.get((rule,), []))
        if found < LEAST:
            yield f"rule {rule} is met by {found} cases, and not by {LEAST}"
    yield from complaints_of_statuses(corpus.met)


def complaints_of_pairs(met: List[Met], reasons: List[Reason]) -> Iterator[str]:
    """Each pair is met or has a reason, and none has both."""
    listed = [pair for reason in reasons for pair in reason.pairs()]
    seen, concerned = {(one.kind, one.rule) for one in met if one.rule}, concerned_pairs()
    for one in met:
        if one.rule and (one.kind, one.rule) not in concerned:
            yield f"{one.place}: {pair_words((one.kind, one.rule))}, which it does not concern"
    for pair in sorted(set(listed)):
        if pair not in concerned:
            yield f"{pair_words(pair)} is listed, and does not concern it"
        if pair in seen:
            yield f"{pair_words(pair)} is listed as one that no script meets, and a case meets it"
        if listed.count(pair) > 1:
            yield f"{pair_words(pair)} is listed twice"
    for pair in sorted(concerned - seen - set(listed)):
        yield f"{pair_words(pair)} is met by no case, and not listed as one that no script meets"


def complaints_of_statuses(met: List[Met]) -> Iterator[str]:
    """Each kind is carried out with each of its statuses, and with no other; and each status comes."""
    seen = {(one.kind, one.status) for one in met if not one.rule}
    wanted = {(kind, status) for kind, statuses in STATUSES.items() for status in statuses}
    for kind, status in sorted(wanted - seen):
        yield f"{kind} is carried out with {status:04X} in no case"
    for kind, status in sorted(seen - wanted):
        yield f"{kind} is carried out with {status:04X}, which is no status of it"
    rule, statuses = WRONG_TOKEN
    refused = {one.status for one in met if (one.kind, one.rule) == (TOKEN, rule)}
    for status in statuses:
        if status not in refused:
            yield f"{pair_words((TOKEN, rule))} comes with {status:04X} in no case"
    for status in sorted(set(WORDS) - {one.status for one in met}):
        yield f"no command is answered {status:04X}"


def read_list(cases: pathlib.Path) -> List[Reason]:
    return read_reasons((cases / "unreachable.txt").read_text())
