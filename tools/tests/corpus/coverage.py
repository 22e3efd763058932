"""`tests/index`: what it finds in the cases of the repository, and what it says where something is taken from them."""

import dataclasses
import functools
import re
import subprocess
import sys

from corpus import coverage, meeting, pages
from corpus.coverage import BadList, Reason, complaints, read_list, read_reasons
from corpus.meeting import met_in, report_line
from telling import commands, kinds
from tests.looking import TOP, holds, same

CASES = TOP / "tests"
THIRD = kinds.AGREE


@functools.lru_cache(maxsize=None)
def read_corpus():
    return meeting.read_corpus(CASES)


def without(taken):
    """The corpus without the commands of which this is so."""
    corpus = read_corpus()
    return dataclasses.replace(corpus, met=[met for met in corpus.met if not taken(met)])


def test_nothing_is_lacking():
    yield "complaints", same([], list(complaints(read_corpus(), read_list(CASES))))


def two_cases_of(rule):
    """Takes all but two of the cases of a rule."""
    kept = sorted({met.case for met in read_corpus().met if met.rule == rule})[:2]
    return lambda met: met.rule == rule and met.case not in kept


LACKING = {
    "a pair": (
        lambda met: (met.kind, met.rule) == (THIRD, 10),
        [f"rule 10 for {THIRD} is met by no case, and not listed as one that no script meets"],
    ),
    "a case of a rule": (two_cases_of(35), ["rule 35 is met by 2 cases, and not by 3"]),
    "a status of a kind": (
        lambda met: met.status == 0x6282,
        ["READ BINARY is carried out with 6282 in no case", "no command is answered 6282"],
    ),
    "a status of a wrong token": (
        lambda met: (met.rule, met.status) == (55, 0x63C0),
        [f"rule 55 for {kinds.TOKEN} comes with 63C0 in no case"],
    ),
}


def test_what_is_taken_away_is_lacking():
    for name, (taken, expected) in LACKING.items():
        yield name, same(expected, list(complaints(without(taken), read_list(CASES))))


MORE = {
    "a pair that is met": (
        Reason([10], [THIRD], ""),
        f"rule 10 for {THIRD} is listed as one that no script meets, and a case meets it",
    ),
    "a pair that is no pair": (
        Reason([55], [commands.READ], ""),
        "rule 55 for READ BINARY is listed, and does not concern it",
    ),
    "a pair that is there": (Reason([7], [THIRD], ""), f"rule 7 for {THIRD} is listed twice"),
}


def test_what_is_listed_and_should_not_be():
    for name, (reason, expected) in MORE.items():
        found = list(complaints(read_corpus(), [*read_list(CASES), reason]))
        yield name, same([expected], found)
    for at, reason in enumerate(read_list(CASES)):
        left = read_list(CASES)
        del left[at]
        yield f"without reason {at + 1}", same(len(list(reason.pairs())), len(list(complaints(read_corpus(), left))))


def test_a_rule_that_does_not_concern_a_kind():
    trace = "on 0\napdu 00\n plain 00 b0 9c00 - 0\n finished 0\n rule 55\n answer 6300\n sent 6300\n"
    corpus = read_corpus()
    more = dataclasses.replace(corpus, met=[*corpus.met, *met_in("a-case", "a-case/trace.txt", trace)])
    expected = ["a-case/trace.txt:2: rule 55 for READ BINARY, which it does not concern"]
    yield "a trace", same(expected, list(complaints(more, read_list(CASES))))


# Lists, and what is read from them: rules with the number of kinds, or the complaint.
LISTS = {
    "rules: 1 2\nkind: a fragment\nwhy: x": [([1, 2], 1)],
    "# x\n\nrules: 7\nkind: every kind\nwhy: x\n\nrules: 8\nkind: GENERAL *\nkind: READ BINARY\nwhy: y": [([7], 25), ([8], 8)],
    "rules: 1\nkind: FLY\nwhy: x": "no kind is 'FLY'",
    "rules: 1\nkind: a fragment": "expected `rules`, `kind` and `why`, found rules, kind",
    "rules: 1\nwhy: x": "expected `rules`, `kind` and `why`, found rules, why",
    "kind: a fragment\nrules: 1\nwhy: x": "expected `rules`, `kind` and `why`, found kind, rules, why",
}


def test_lists():
    for text, expected in LISTS.items():
        try:
            found = [(reason.rules, len(reason.kinds)) for reason in read_reasons(text)]
        except BadList as error:
            found = str(error)
        yield text, same(expected, found)


REPORT_LINES = {
    "pace 9000": "pace 9000",
    "dg4 9000 4552494b41": "dg 9000",
    "dg21 6982": "dg 6982",
    "age 6300": "age 6300",
    "ri 9000 00": "ri 9000",
    "stopped pace 63c2": "stopped pace 63c2",
    "stopped ta fault": "stopped ta fault",
}


def test_lines_of_reports():
    for line, expected in REPORT_LINES.items():
        yield line, same(expected, report_line(line))


def anchors(text):
    """The names of the headings: letters and digits of lower case, with hyphens for spaces."""
    headings = re.findall(r"^#+ (.*)$", text.lower(), re.MULTILINE)
    kept = ("".join(letter for letter in heading if letter.isalnum() or letter in " -") for heading in headings)
    return {heading.replace(" ", "-") for heading in kept}


def test_links_of_the_index():
    text = pages.index_text(read_corpus(), read_list(CASES))
    targets, there = set(re.findall(r"\]\(([^)]+)\)", text)), anchors(text)
    yield "there are over 400 of them", holds(len(targets) > 400, len(targets))
    for target in sorted(targets):
        found = target[1:] in there if target.startswith("#") else (CASES / target.split("#")[0]).exists()
        yield target, holds(found, "leads to nothing")


def called(*words):
    ran = subprocess.run([sys.executable, str(CASES / "index"), *words], stdout=subprocess.PIPE, stderr=subprocess.PIPE)
    return ran.returncode, ran.stdout.decode(), ran.stderr.decode()


def test_commands_are_found():
    status, printed, complaint = called("--kind", "verify certificate", "--rule", "54")
    lines = printed.splitlines()
    yield "status", same((0, ""), (status, complaint))
    yield "there are some", holds(len(lines) > 3, printed)
    for line in lines:
        place, _, what = line.partition(": ")
        name, _, number = place.partition(":")
        yield line, same("PSO:Verify Certificate, rule 54, 6581", what)
        found = (TOP / name).read_text().splitlines()[int(number) - 1]
        yield f"{line}, its place", holds(found.startswith("apdu "), found)
    yield "none", same((1, "", ""), called("--kind", "verify certificate", "--rule", "55"))
