"""Tellings as lines of text."""

from typing import Iterator, List

from telling.lines import Telling, Told
from telling.parts import Part

INDENT = "    "


def hex_of(part: Part) -> str:
    """A part's own bytes, a tag with its length apart from the value."""
    return " ".join(piece.hex() for piece in (part.head, part.value) if piece)


def part_lines(parts: List[Part], depth: int) -> Iterator[str]:
    for part in parts:
        yield f"{INDENT * depth}{part.words}  {hex_of(part)}"
        yield from part_lines(part.inside, depth + 1)


def telling_lines(telling: Telling) -> Iterator[str]:
    yield telling.line
    yield f"{INDENT}{telling.words}"
    yield from part_lines(telling.parts, 2)
    if telling.joined:
        yield f"{INDENT}The bodies of the chain, one behind the other:"
        yield from part_lines(telling.joined, 2)


def moment_lines(told: Told) -> Iterator[str]:
    for telling in told.tellings:
        yield from telling_lines(telling)
