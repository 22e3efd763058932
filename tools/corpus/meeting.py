"""What the cases meet: each answered command of an expected trace with its kind, rule and status, each run with its exit
status, and each line of an expected report."""

import pathlib
from dataclasses import dataclass, field
from typing import Dict, Iterator, List, Tuple

from corpus.reading import BadCase, case_folders, read_case, steps_of
from telling import Refused
from telling.course import Course
from telling.kinds import kind_of
from telling.trace import read_trace

# The commands of the program; what the first two print is a trace.
COMMANDS = ("run", "replay", "session", "big", "make", "kit", "show")
TRACING = COMMANDS[:2]
OTHER_WORDS = "other words"


@dataclass(frozen=True)
class Met:
    """A command that was answered: where it stands, its kind, the first rule that failed (or 0), and the status."""

    case: str
    place: str
    kind: str
    rule: int
    status: int


@dataclass
class Corpus:
    """What all cases meet."""

    # by the name of a case, how many lines its expected outputs have
    sizes: Dict[str, int] = field(default_factory=dict)
    met: List[Met] = field(default_factory=list)
    # how many runs of the program there are; their commands with the exit status, and the lines of reports, with the cases
    count: int = 0
    runs: Dict[Tuple[str, int], List[str]] = field(default_factory=dict)
    reports: Dict[str, List[str]] = field(default_factory=dict)

    def add_case(self, folder: pathlib.Path) -> None:
        self.sizes[folder.name] = 0
        for key, step in steps_of(read_case(folder)):
            if key == "words":
                self.add_run(folder, step)

    def add_run(self, folder: pathlib.Path, step: Dict[str, str]) -> None:
        """A line `words` with what comes of it."""
        name, word = folder.name, step["words"].split(" ")[0]
        self.count += 1
        add(self.runs, (word if word in COMMANDS else OTHER_WORDS, int(step.get("status", "0"))), name)
        if "prints" not in step:
            return
        path = folder / step["prints"]
        text = path.read_text()
        self.sizes[name] += text.count("\n")
        if word in TRACING:
            self.met += met_in(name, str(path.relative_to(folder.parent)), text)
        elif word == "session":
            for line in text.splitlines():
                add(self.reports, report_line(line), name)


def add(table: Dict, key, name: str) -> None:
    """Puts down a case, once."""
    names = table.setdefault(key, [])
    if name not in names:
        names.append(name)


def report_line(line: str) -> str:
    """A line of a report without its data; a data group is any."""
    words = line.split(" ")
    words = words if words[0] == "stopped" else words[:2]
    return " ".join(["dg" if words[0].startswith("dg") else words[0], *words[1:]])


def met_in(case: str, name: str, text: str) -> Iterator[Met]:
    """The commands of a trace that were answered."""
    course = Course()
    for moment in read_trace(text):
        kind = kind_of(moment, course)
        if kind is not None and moment.answer is not None:
            yield Met(case, f"{name}:{moment.first}", kind, moment.rule, moment.status())
        course.go_on(moment)


def read_corpus(cases: pathlib.Path) -> Corpus:
    """What the cases of this folder meet."""
    corpus = Corpus()
    for folder in case_folders(cases):
        try:
            corpus.add_case(folder)
        except (BadCase, Refused) as error:
            raise BadCase(f"{folder.name}: {error}") from None
    return corpus
