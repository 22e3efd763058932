"""Scripts and answers (docs/GUIDE.md), line by line: which line is none, and what was expected there."""

import re
from typing import Callable, Optional, Tuple

from telling.parts import count

TEXT_LIMIT = 1_048_576
COMMAND_LIMIT = 65_544
WRITE_LIMIT = 1_000_000
DIGITS = re.compile(rb"[0-9A-Fa-f]*")

# A defect: the number of a line, 0 for the whole text, and why it is none.
Defect = Tuple[int, str]


def shown(line: bytes) -> str:
    """A line as it stands there, cut off where it is long."""
    text = line.decode("ascii", "backslashreplace")
    text = "".join(character if character.isprintable() else repr(character)[1:-1] for character in text)
    return f"`{text[:40]}..`" if len(text) > 43 else f"`{text}`"


def spelling(line: bytes) -> str:
    """What is wrong with a line around its words, where something is."""
    if line.endswith(b"\r"):
        return "a CR stands at its end"
    if line.startswith(b"\xef\xbb\xbf"):
        return "a byte order mark stands in front"
    if line[:1] in (b" ", b"\t"):
        return "white space stands in front"
    if line[-1:] in (b" ", b"\t"):
        return "white space stands at its end"
    if b"\t" in line:
        return "a tab stands in it"
    return "two spaces stand in a row" if b"  " in line else ""


def hex_defect(text: bytes, low: int, high: int) -> Optional[str]:
    """Why a text does not write so many bytes, where it does not."""
    wanted = count(low, "byte") if low == high else f"{low:,} to {high:,} bytes"
    if not DIGITS.fullmatch(text):
        return f"expected {wanted} in hexadecimal, found {shown(text)}"
    if len(text) % 2:
        return f"expected {wanted} in hexadecimal, two digits each, found {count(len(text), 'digit')}"
    if not low <= len(text) // 2 <= high:
        return f"expected {wanted} in hexadecimal, found {len(text) // 2:,}"
    return None


# ---- scripts

SCRIPT_LINES = "`on`, `off`, `apdu HEX`, `cut WRITE old`, `.. new`, `.. half`, `.. fill XX`, nothing, or a front `#`"


def cut_defect(words: bytes) -> Optional[str]:
    write, _, tear = words.partition(b" ")
    if not re.fullmatch(rb"[1-9][0-9]{0,6}", write) or int(write) > WRITE_LIMIT:
        wanted = f"a write from 1 to {WRITE_LIMIT} in decimal, without leading zeros"
        return f"expected {wanted}, found {shown(write)}"
    if tear in (b"old", b"new", b"half") or re.fullmatch(rb"fill [0-9A-Fa-f]{2}", tear):
        return None
    return f"expected `old`, `new`, `half` or `fill XX` behind the write, found {shown(tear)}"


def script_defect(line: bytes) -> Optional[str]:
    """Why a line is none of a script, where it is none."""
    if not line or line.startswith(b"#") or line in (b"on", b"off"):
        return None
    if line.startswith(b"apdu "):
        return hex_defect(line[5:], 1, COMMAND_LIMIT)
    if line.startswith(b"cut "):
        return cut_defect(line[4:])
    return f"expected {SCRIPT_LINES}, found {shown(line)}"


# ---- answers

SIZES = {b"nonce": (16,), b"challenge": (8,), b"pair": (32, 65), b"map": (65,), b"agree": (32,), b"sign": (64,)}
ANSWER_LINES = "`nonce`, `challenge`, `pair`, `map`, `agree`, `verify` or `sign` with an answer, `fault`, or nothing"


def answer_defect(line: bytes) -> Optional[str]:
    """Why a line is none of answers, where it is none."""
    word, space, rest = line.partition(b" ")
    if not line or line == b"fault" or (word in (b"map", b"agree") and rest == b"none"):
        return None
    if word == b"verify" and space:
        return None if rest in (b"yes", b"no") else f"expected `yes` or `no`, found {shown(rest)}"
    if word not in SIZES or not space:
        return f"expected {ANSWER_LINES}, found {shown(line)}"
    values = rest.split(b" ", 1) if word == b"pair" else [rest]
    if len(values) < len(SIZES[word]):
        return "expected a secret of 32 bytes and a public point of 65, found one value"
    defects = [hex_defect(value, size, size) for value, size in zip(values, SIZES[word])]
    return next((defect for defect in defects if defect), None)


# ---- texts


def first_defect(text: bytes, defect_of: Callable[[bytes], Optional[str]]) -> Optional[Defect]:
    """The first line that is none, where one is."""
    if len(text) > TEXT_LIMIT:
        return 0, f"expected a text of at most {TEXT_LIMIT:,} bytes, found more"
    for number, line in enumerate(text.split(b"\n"), 1):
        why = defect_of(line)
        if why:
            around = spelling(line)
            return number, f"{why}; {around}" if around else why
    return None
