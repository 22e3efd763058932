"""The index of the cases as a text in Markdown."""

import re
from typing import Iterator, List, Sequence

from corpus.coverage import Reason, cases_by, concerned_pairs
from corpus.meeting import COMMANDS, OTHER_WORDS, Corpus
from telling import tables
from telling.kinds import ALL, CONCERNED, KINDS, STATUSES
from telling.parts import count

# How many of the cases are named that meet what very many do.
NAMED = 3
HEAD = (
    "# Index of the cases\n\n"
    "`tests/index` makes this file from the expected traces and reports of the cases, and `tests/index --check` finds "
    "whether it is the one that they give. **A case meets a rule for a kind** where one of its commands is of that kind, "
    "and the rule is the first one that fails. Of very many cases the shortest are named; "
    "`tests/index --kind KIND --rule N --status HEX` finds each command, with its line. The rules and statuses are those of [the guide](../docs/GUIDE.md#rules)."
)


class Index:
    """The text, section by section."""

    def __init__(self, corpus: Corpus, reasons: List[Reason]):
        self.corpus, self.reasons = corpus, reasons
        self.by_pair = cases_by(corpus, "kind", "rule")
        self.by_rule = cases_by(corpus, "rule")
        self.by_all = cases_by(corpus, "kind", "rule", "status")
        self.statuses = {rule: self.statuses_of(rule) for rule in CONCERNED}

    def statuses_of(self, rule: int) -> List[int]:
        return sorted(status for _, number, status in self.by_all if number == rule)

    def text(self) -> str:
        sections = (self.numbers, self.rules, self.kinds, self.all_statuses, self.exit_statuses, self.report_lines, self.unmet)
        return "\n".join([HEAD, "", *(line for section in sections for line in section())])

    # ---- sections

    def numbers(self) -> Iterator[str]:
        met = sum(1 for _, rule in self.by_pair if rule)
        listed = sum(len(list(reason.pairs())) for reason in self.reasons)
        yield "| what | how many |"
        yield "|---|---|"
        yield f"| cases | {len(self.corpus.sizes):,} |"
        yield f"| runs of the program in them | {self.corpus.count:,} |"
        yield f"| commands that are answered in their traces | {len(self.corpus.met):,} |"
        yield f"| rules, each met by {min(map(len, self.by_rule.values()))} cases or more | {len(CONCERNED)} |"
        yield f"| pairs of a kind and a rule that concerns it | {len(concerned_pairs())} |"
        yield f"| of these, met by a case | {met} |"
        yield f"| of these, [met by no script](#pairs-that-no-script-meets) | {listed} |"
        yield ""

    def rules(self) -> Iterator[str]:
        yield from ("## By rule", "", "| rule | status | refused, because | cases |", "|---|---|---|---|")
        for rule in CONCERNED:
            row = (self.rule_link(rule), words_of(self.statuses[rule]), tables.RULES[rule], len(self.by_rule[rule,]))
            yield f"| {' | '.join(map(str, row))} |"
        yield ""
        for rule in CONCERNED:
            yield from (f"### {self.rule_heading(rule)}", "", tables.RULES[rule], "")
            for kind in ALL:
                if (kind, rule) in self.by_pair:
                    yield f"- {kind}: {links(self.by_pair[kind, rule])}"
            yield ""

    def kinds(self) -> Iterator[str]:
        yield from ("## By kind", "")
        for kind in ALL:
            yield from (f"### {kind[0].upper()}{kind[1:]}", "")
            for status in STATUSES.get(kind, ()):
                yield f"- carried out with {status:04X}: {self.some(self.by_all[kind, 0, status])}"
            refusing = [rule for rule in CONCERNED if (kind, rule) in self.by_pair]
            if refusing:
                yield f"- refused by rule {', '.join(self.counted(kind, rule) for rule in refusing)}"
            yield from self.never(kind)
            yield ""

    def counted(self, kind: str, rule: int) -> str:
        return f"{self.rule_link(rule)} ({len(self.by_pair[kind, rule])})"

    def never(self, kind: str) -> Iterator[str]:
        """The rules that concern the kind and that no script meets with it."""
        for number, reason in enumerate(self.reasons, 1):
            if kind in reason.kinds:
                yield f"- never by rule {words_of(reason.rules, '{}')}: [reason {number}](#pairs-that-no-script-meets)"

    def all_statuses(self) -> Iterator[str]:
        yield from ("## By status", "", "| status | what it says | carried out | refused by rule |", "|---|---|---|---|")
        for status, words in sorted(tables.STATUSES.items()):
            kinds = [f"{kind} ({len(self.by_all[kind, 0, status])})" for kind in ALL if (kind, 0, status) in self.by_all]
            rules = [self.with_status(rule, status) for rule in CONCERNED if status in self.statuses[rule]]
            told = ", ".join(kinds) if len(kinds) <= NAMED else f"[{count(len(kinds), 'kind')}](#by-kind)"
            yield f"| {status:04X} | {words} | {told} | {', '.join(rules)} |"
        yield ""

    def with_status(self, rule: int, status: int) -> str:
        """A rule with the number of the cases in which it refuses with this status."""
        groups = [cases for (_, *how), cases in self.by_all.items() if how == [rule, status]]
        return f"{self.rule_link(rule)} ({len(set().union(*groups))})"

    def exit_statuses(self) -> Iterator[str]:
        yield from ("## By exit status of the program", "", "| status | command | cases |", "|---|---|---|")
        order = (*COMMANDS, OTHER_WORDS)
        for command, status in sorted(self.corpus.runs, key=lambda run: (run[1], order.index(run[0]))):
            cases = self.corpus.runs[command, status]
            yield f"| {status} | {command} | {links(cases) if status else self.some(cases)} |"
        yield ""

    def report_lines(self) -> Iterator[str]:
        yield from ("## By line of a report", "", "What `session` prints, without the data; `dg` is any data group.", "")
        yield from ("| line | cases |", "|---|---|")
        for line, cases in sorted(self.corpus.reports.items()):
            yield f"| `{line}` | {self.some(cases)} |"
        yield ""

    def unmet(self) -> Iterator[str]:
        yield from ("## Pairs that no script meets", "", "From [unreachable.txt](unreachable.txt).", "")
        for number, reason in enumerate(self.reasons, 1):
            what = "Rule" if len(reason.rules) == 1 else "Rules"
            yield f"{number}. {what} {words_of(reason.rules, '{}')}, for {kinds_words(reason.kinds)}. {reason.why}"
        yield ""

    # ---- pieces

    def rule_heading(self, rule: int) -> str:
        return f"Rule {rule}: {words_of(self.statuses[rule])}"

    def rule_link(self, rule: int) -> str:
        return f"[{rule}](#{anchor(self.rule_heading(rule))})"

    def some(self, cases: Sequence[str]) -> str:
        """How many cases there are, and all of them, or the shortest."""
        if len(cases) <= NAMED:
            return links(cases)
        shortest = sorted(cases, key=lambda case: (self.corpus.sizes[case], case))[:NAMED]
        return f"{len(cases)}, the shortest {links(shortest)}"


def words_of(numbers: Sequence[int], form: str = "{:04X}") -> str:
    return ", ".join(form.format(number) for number in sorted(set(numbers)))


def kinds_words(kinds: List[str]) -> str:
    """Kinds by their names, or all of them at once."""
    named = [kind for kind in kinds if kind not in KINDS] if set(KINDS) <= set(kinds) else kinds
    return "; ".join((["every kind"] if len(named) < len(kinds) else []) + named)


def links(cases: Sequence[str]) -> str:
    return ", ".join(f"[{case}]({case})" for case in cases)


def anchor(heading: str) -> str:
    """The name under which a heading is linked to."""
    return re.sub(r"[^\w\- ]", "", heading.lower()).replace(" ", "-")


def index_text(corpus: Corpus, reasons: List[Reason]) -> str:
    return Index(corpus, reasons).text()
