"""A trace as one page of HTML that stands alone: a timeline of the sessions, and of each command the plain and the protected form
side by side."""

import pathlib
from html import escape
from itertools import groupby
from typing import Iterator, List, Tuple

from telling.lines import Telling, Told
from telling.parts import Part
from telling.text import hex_of
from telling.trace import summary

STYLE = pathlib.Path(__file__).with_name("page.css")


def outcome_class(told: Told) -> str:
    if told.moment.word() != "apdu":
        return "power"
    if told.moment.is_carried_out():
        return "done"
    return "refused" if told.moment.rule else "lost"


# ---- the timeline


def short(title: str) -> str:
    """A title without what the phase beside it says."""
    for front in (" for ", " of chip", " of restricted", " of PACE"):
        title = title.split(": ")[-1].split(front)[0]
    return title


def mark(number: int, told: Told) -> str:
    title = f"{told.title}, {told.outcome}" if told.outcome else told.title
    return f'<a class="{outcome_class(told)}" href="#m{number}" title="{escape(title)}">{number} {escape(short(told.title))}</a>'


def timeline(numbered: List[Tuple[int, Told]]) -> Iterator[str]:
    """The sessions, of each the phases one below the other, with a mark for each command."""
    for session, members in groupby(numbered, key=lambda pair: pair[1].session):
        yield f'<nav class="timeline"><h2>Session {session}</h2><ol>'
        for phase, group in groupby(members, key=lambda pair: pair[1].phase):
            marks = "".join(mark(number, told) for number, told in group)
            yield f'<li><span>{escape(phase)}</span><span class="marks">{marks}</span></li>'
        yield "</ol></nav>"


# ---- moments


def parts_list(parts: List[Part]) -> str:
    """Parts with their bytes, those inside of others as lists of their own."""
    if not parts:
        return ""
    items = (f"<li>{escape(part.words)} <code>{hex_of(part)}</code>{parts_list(part.inside)}</li>" for part in parts)
    return f'<ul class="parts">{"".join(items)}</ul>'


def first_word(telling: Telling) -> str:
    return telling.line.split()[0]


def telling_html(telling: Telling, is_open: bool) -> str:
    """A line with its words; its bytes are folded up where the other form tells them already."""
    told = f'<div class="telling {first_word(telling)}"><code class="line">{escape(telling.line)}</code>'
    told += f"<p>{escape(telling.words)}</p>"
    if telling.parts:
        told += f"<details{' open' if is_open else ''}><summary>byte by byte</summary>{parts_list(telling.parts)}</details>"
    if telling.joined:
        told += f"<p>The bodies of the chain, one behind the other:</p>{parts_list(telling.joined)}"
    return told + "</div>"


# The views of a command: the first words of their lines, the class, the heading, and whether their bytes are shown.
VIEWS = (
    (("apdu",), "received", "As it was received", False),
    (("plain",), "plain", "Plain", True),
    (("ask", "finished", "rule"), "middle", "What the chip did", False),
    (("answer",), "answer", "Plain answer", True),
    (("sent",), "sent", "As it was sent", False),
)


def views(told: Told) -> Iterator[str]:
    for words, name, heading, is_open in VIEWS:
        shown = [telling_html(telling, is_open) for telling in told.tellings if first_word(telling) in words]
        if shown:
            yield f'<div class="{name}"><h3>{heading}</h3>{"".join(shown)}</div>'


def article(number: int, told: Told) -> str:
    outcome = f' <span class="outcome">{escape(told.outcome)}</span>' if told.outcome else ""
    head = f'<article id="m{number}" class="{outcome_class(told)}">'
    head += f'<h2><span class="soft">{number}</span> {escape(told.title)}{outcome}</h2>'
    if told.moment.word() != "apdu":
        return f"{head}{telling_html(told.tellings[0], False)}</article>"
    return f'{head}<div class="views">{"".join(views(told))}</div></article>'


def page(title: str, told: List[Told]) -> str:
    """The whole page."""
    numbered = list(enumerate(told, 1))
    counted = summary([one.moment for one in told])
    head = [
        "<!doctype html>",
        '<html lang="en"><head><meta charset="utf-8">',
        '<meta name="viewport" content="width=device-width, initial-scale=1">',
        f"<title>{escape(title)}</title><style>\n{STYLE.read_text()}</style></head><body>",
        f'<header><h1>{escape(title)}</h1><p class="soft">{counted}</p></header>',
    ]
    body = [*timeline(numbered), "<main>", *(article(number, one) for number, one in numbered), "</main>"]
    return "\n".join([*head, *body, "</body></html>", ""])
