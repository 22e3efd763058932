"""The sessions of the stored cases (tests/README.md tells what a case is), each with the report that is stored for it."""

import os
import pathlib
from dataclasses import dataclass
from typing import Callable, Dict, Iterator, List, Tuple

CASE_FILE = "case.txt"
START = 3  # the place of START among the words of a session

# Runs the program with these words in a folder of these files; gives what it printed, its status, and the files afterwards.
Runner = Callable[[List[str], Dict[str, bytes]], Tuple[bytes, int, Dict[str, bytes]]]


@dataclass(frozen=True)
class Stored:
    """A session that ends with 0: its image and terminal file, and what it has to print."""

    name: str
    cells: bytes
    terminal: bytes
    start: int
    report: bytes


def case_lines(folder: pathlib.Path) -> List[Tuple[str, str]]:
    lines = (folder / CASE_FILE).read_text().splitlines()
    pairs = (line.partition(":") for line in lines if line and not line.startswith("#"))
    return [(key, value.strip()) for key, _, value in pairs]


def has_session(folder: pathlib.Path) -> bool:
    return any(key == "words" and value.startswith("session ") for key, value in case_lines(folder))


def folders(places: List[pathlib.Path]) -> List[pathlib.Path]:
    """The cases with a session."""
    found = [path.parent for place in places for path in sorted(place.glob(f"*/{CASE_FILE}"))]
    return [folder for folder in found if has_session(folder)]


class Walk:
    """A case on its way: its files, as the lines before leave them."""

    def __init__(self, folder: pathlib.Path, run: Runner):
        self.folder, self.run = folder, run
        self.files = {path.name: path.read_bytes() for path in folder.iterdir() if path.name != CASE_FILE}

    def given(self, name: str) -> bytes:
        return (self.folder / name).read_bytes()

    def file(self, name: str, source: str) -> None:
        self.files[name] = self.given(source)

    def append(self, name: str, count: str, unit: str) -> None:
        self.files[name] = self.files.get(name, b"") + int(count) * bytes.fromhex(unit)

    def size(self, name: str, size: str) -> None:
        self.files[name] = self.files[name][: int(size)].ljust(int(size), b"\0")

    def patch(self, name: str, place: str, unit: str) -> None:
        old, at, new = self.files[name], int(place), bytes.fromhex(unit)
        self.files[name] = old[:at] + new + old[at + len(new) :]

    def before(self, *words: str) -> None:
        _, _, self.files = self.run(list(words), self.files)

    def sessions(self) -> Iterator[Stored]:
        lines = case_lines(self.folder)
        for place, (key, value) in enumerate(lines):
            words = value.split(" ")
            if key in ("file", "append", "size", "patch", "before"):
                getattr(self, key)(*words)
            if key == "words":
                told = expectations(lines[place + 1 :])
                if words[0] == "session" and len(words) > START and not {"status", "output"} & set(told):
                    yield self.session(words, told, place)
                if "leaves" in told:
                    self.file(*told["leaves"].split(" "))

    def session(self, words: List[str], told: Dict[str, str], place: int) -> Stored:
        image, terminal = (self.files[name] for name in words[1:START])
        report = self.given(told["prints"]) if "prints" in told else b""
        return Stored(f"{self.folder.name}:{place + 1}", image, terminal, int(words[START]), report)


def expectations(lines: List[Tuple[str, str]]) -> Dict[str, str]:
    """What stands below a line `words`."""
    found = {}
    for key, value in lines:
        if key not in ("prints", "status", "leaves", "output"):
            break
        found[key] = value
    return found


def sessions(folder: pathlib.Path, run: Runner) -> List[Stored]:
    return list(Walk(folder, run).sessions())


def is_program(path: pathlib.Path) -> bool:
    return path.is_file() and os.access(path, os.X_OK)
