"""Cases as their files tell them; tests/README.md says what the lines of a case.txt mean."""

import pathlib
from typing import Dict, List, Tuple, Union

CASE_FILE = "case.txt"
SHARED = "files"
PREPARE = ("file", "append", "size", "patch", "link", "mode", "before")
EXPECT = ("status", "prints", "leaves", "output")
KEYS = ("shows", "words", *PREPARE, *EXPECT)

# A line of a case by its key; below `words`, the value is that of this line and of those that say what comes of it.
Step = Tuple[str, Union[str, Dict[str, str]]]


class BadCase(Exception):
    """A case says nothing that can be run."""


def case_folders(cases: pathlib.Path) -> List[pathlib.Path]:
    """The folders of the cases, by name."""
    hidden = (SHARED, "__pycache__")
    return [path for path in sorted(cases.iterdir()) if path.is_dir() and path.name not in hidden]


def read_case(folder: pathlib.Path) -> List[Tuple[str, str]]:
    """The lines of a case, as keys with their values."""
    path = folder / CASE_FILE
    if not path.is_file():
        raise BadCase(f"no {CASE_FILE}")
    lines = []
    for number, line in enumerate(path.read_text().splitlines(), 1):
        if not line or line.startswith("#"):
            continue
        key, colon, value = line.partition(":")
        if not colon or key not in KEYS:
            raise BadCase(f"line {number} of {CASE_FILE} is none: {line}")
        lines.append((key, value[1:] if value.startswith(" ") else value))
    if [key for key, _ in lines].count("shows") != 1:
        raise BadCase(f"{CASE_FILE} has not one line `shows`")
    return lines


def steps_of(lines: List[Tuple[str, str]]) -> List[Step]:
    """The lines of a case one after the other; those below a line `words` are joined to it."""
    steps: List[Step] = []
    for key, value in lines:
        if key in EXPECT:
            if not steps or steps[-1][0] != "words":
                raise BadCase(f"`{key}` stands below no line `words`")
            steps[-1][1][key] = value
        elif key != "shows":
            steps.append((key, {"words": value} if key == "words" else value))
    if all(key != "words" for key, _ in steps):
        raise BadCase("no line `words`")
    return steps
