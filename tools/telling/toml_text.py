"""TOML 1.1 as the program reads it: values at most 80 deep, whole numbers of 64 bits, and no number that no float can hold.

Python has a reader of its own only from 3.11 on, of another version of TOML, and it does not tell on which line a key stands.
"""

import calendar
import re
from dataclasses import dataclass, field
from typing import Any, Dict, List, Tuple

DEPTH = 80
WHITE = re.compile(r"[ \t]*")
LINES = re.compile(r"(?:[ \t]|\r?\n)*")
COMMENT = re.compile(r"#[^\x00-\x08\x0A-\x1F\x7F]*")
# By the delimiter of a string: a run of it, and a run of characters that stand for themselves.
DELIMITERS = {'"': re.compile('"*'), "'": re.compile("'*")}
PLAIN = {'"': re.compile(r'[^"\\\x00-\x08\x0A-\x1F\x7F]+'), "'": re.compile(r"[^'\x00-\x08\x0A-\x1F\x7F]+")}
NEWLINE = re.compile(r"\r?\n")
BARE = re.compile(r"[A-Za-z0-9_-]+")
WORD = re.compile(r"[A-Za-z0-9_+.:-]*")
ESCAPES = {"b": "\b", "e": "\x1b", "f": "\f", "n": "\n", "r": "\r", "t": "\t", '"': '"', "\\": "\\"}
HEX_ESCAPES = {"x": 2, "u": 4, "U": 8}
RADIXES = {"x": (16, "0123456789abcdefABCDEF"), "o": (8, "01234567"), "b": (2, "01")}
DECIMAL = re.compile(r"([+-]?)(0|[1-9][0-9]*)(\.[0-9]+)?([eE][+-]?[0-9]+)?")
SPECIAL = re.compile(r"[+-]?(?:inf|nan)")
TIME = r"(\d\d):(\d\d)(?::(\d\d)(?:\.\d+)?)?"
DATE_TIME = re.compile(rf"(\d{{4}})-(\d\d)-(\d\d)(?:[Tt ]{TIME}(?:[Zz]|[+-](\d\d):(\d\d))?)?", re.ASCII)
LOCAL_TIME = re.compile(TIME, re.ASCII)


class NoTable(Exception):
    """The text is no TOML table: the line where that shows, and why."""

    def __init__(self, line: int, why: str):
        super().__init__(line, why)
        self.line, self.why = line, why


@dataclass
class DateTime:
    """A date, a time or both, of which only the text is of use."""

    text: str


@dataclass
class Table:
    """A table on its way, with what made it: `header`, `dotted`, or `implicit`, where a header passed through it."""

    origin: str
    members: Dict[str, Any] = field(default_factory=dict)


@dataclass
class Tables:
    """An array of tables on its way, of which the last one is open."""

    members: List[Table]


@dataclass
class Document:
    """The table that a text is, and the line of each of its keys."""

    table: Dict[str, Any]
    lines: Dict[str, int]


def closed(node: Any) -> Any:
    """A value without the marks of its reading."""
    if isinstance(node, Table):
        return {key: closed(value) for key, value in node.members.items()}
    if isinstance(node, Tables):
        return [closed(table) for table in node.members]
    return node


class Reader:
    """A text with the place that has been read up to."""

    def __init__(self, text: str):
        self.text = text[1:] if text.startswith("\ufeff") else text
        self.at = 0
        # a place before which the lines are counted, and their number
        self.counted = (0, 1)

    def fail(self, why: str) -> None:
        raise NoTable(self.line(), why)

    def line(self) -> int:
        place, number = self.counted
        self.counted = (self.at, number + self.text.count("\n", place, self.at))
        return self.counted[1]

    def sees(self, front: str) -> bool:
        return self.text.startswith(front, self.at)

    def peek(self) -> str:
        return self.text[self.at : self.at + 1]

    def take(self, front: str, why: str) -> None:
        if not self.sees(front):
            self.fail(why)
        self.at += len(front)

    def skip(self, pattern: "re.Pattern") -> str:
        """Goes on behind what the pattern finds here."""
        found = pattern.match(self.text, self.at)
        self.at = found.end() if found else self.at
        return found.group() if found else ""

    def at_newline(self) -> bool:
        return self.sees("\n") or self.sees("\r\n")

    def skip_blank(self) -> None:
        """White space, ends of lines and comments."""
        self.skip(LINES)
        while self.sees("#"):
            self.skip(COMMENT)
            if self.peek() and not self.at_newline():
                self.fail("a comment with a control character")
            self.skip(LINES)

    # ---- strings and keys

    def string(self) -> str:
        """A string of one line or of several, at its delimiter."""
        delimiter = self.peek()
        if not self.sees(3 * delimiter):
            return self.one_line()
        self.at += 3
        self.at += 1 if self.sees("\n") else 2 if self.sees("\r\n") else 0
        return self.content(delimiter, True)

    def one_line(self) -> str:
        delimiter = self.peek()
        self.at += 1
        return self.content(delimiter, False)

    def content(self, delimiter: str, multi: bool) -> str:
        """The content of a string and the delimiter behind it."""
        found = []
        while True:
            found.append(self.skip(PLAIN[delimiter]))
            if self.sees(delimiter):
                if self.closes(delimiter, multi):
                    return "".join(found)
                found.append(delimiter)
            elif self.sees("\\"):
                found.append(self.escape(multi))
            elif multi and self.at_newline():
                found.append(self.skip(NEWLINE))
            else:
                ends = not self.peek() or self.at_newline()
                self.fail("a string without its end" if ends else "a control character in a string")

    def closes(self, delimiter: str, multi: bool) -> bool:
        """Goes on behind one delimiter, or behind the three that end a string of several lines; tells whether the string ends."""
        count = len(DELIMITERS[delimiter].match(self.text, self.at).group())
        if multi and count > 5:
            self.fail("more than five delimiters of a string in a row")
        is_end = not multi or count == 3
        self.at += 3 if multi and is_end else 1
        return is_end

    def escape(self, multi: bool) -> str:
        """What a backslash stands for with the characters behind it."""
        self.at += 1
        start = self.at
        self.skip(WHITE)
        if multi and self.at_newline():
            self.skip(LINES)
            return ""
        self.at = start + 1
        letter = self.text[start : start + 1]
        if letter not in HEX_ESCAPES:
            return ESCAPES.get(letter) or self.fail("a backslash with another character behind it than an escape has")
        digits = self.text[self.at : self.at + HEX_ESCAPES[letter]]
        if not re.fullmatch(f"[0-9A-Fa-f]{{{HEX_ESCAPES[letter]}}}", digits) or not is_scalar(int(digits, 16)):
            self.fail("an escape that is no character")
        self.at += len(digits)
        return chr(int(digits, 16))

    def simple_key(self) -> str:
        if self.peek() in ('"', "'"):
            return self.one_line()
        return self.skip(BARE) or self.fail("no key where one has to stand")

    def key(self) -> List[str]:
        """A key with its dots, and the white space behind it."""
        parts = [self.simple_key()]
        self.skip(WHITE)
        while self.sees("."):
            self.at += 1
            self.skip(WHITE)
            parts.append(self.simple_key())
            self.skip(WHITE)
        return parts if len(parts) <= DEPTH else self.fail(f"a key of more than {DEPTH} parts")

    # ---- values

    def value(self, depth: int = DEPTH) -> Any:
        if self.peek() in ('"', "'"):
            return self.string()
        if depth and self.sees("["):
            return self.array(depth - 1)
        if depth and self.sees("{"):
            return self.inline_table(depth - 1)
        return self.scalar()

    def array(self, depth: int) -> List[Any]:
        self.at += 1
        found = []
        while not self.ends("]"):
            found.append(self.value(depth))
            self.after_element("]")
        return found

    def inline_table(self, depth: int) -> Dict[str, Any]:
        self.at += 1
        found = Table("header")
        while not self.ends("}"):
            key, value = self.pair(depth)
            self.put(found, key, value)
            self.after_element("}")
        return closed(found)

    def ends(self, closing: str) -> bool:
        self.skip_blank()
        if self.sees(closing):
            self.at += 1
            return True
        return False

    def after_element(self, closing: str) -> None:
        self.skip_blank()
        if self.sees(","):
            self.at += 1
        elif not self.sees(closing):
            self.fail(f"neither a comma nor `{closing}` behind a value")

    def pair(self, depth: int = DEPTH) -> Tuple[List[str], Any]:
        key = self.key()
        self.take("=", "no `=` behind a key")
        self.skip(WHITE)
        return key, self.value(depth)

    def scalar(self) -> Any:
        end = WORD.match(self.text, self.at).end()
        if re.match(" [0-9]", self.text[end : end + 2]):
            end = WORD.match(self.text, end + 1).end()
        word = self.text[self.at : end]
        value = scalar_of(word)
        if value is None:
            self.fail(f"`{word[:40]}`, which is no value" if word else "no value where one has to stand")
        self.at = end
        return value

    # ---- tables

    def put(self, table: Table, key: List[str], value: Any) -> None:
        """Puts a value at a key whose dots lead through tables that no header made."""
        for part in key[:-1]:
            table = table.members.setdefault(part, Table("dotted"))
            if not isinstance(table, Table) or table.origin == "header":
                self.fail(f"the key `{part}` once more, where no table goes on")
            table.origin = "dotted"
        if key[-1] in table.members:
            self.fail(f"the key `{key[-1]}` once more")
        table.members[key[-1]] = value

    def passed(self, root: Table, path: List[str]) -> Table:
        """The table that a header leads to: through tables, and the last one of an array of tables."""
        table = root
        for part in path:
            node = table.members.setdefault(part, Table("implicit"))
            node = node.members[-1] if isinstance(node, Tables) else node
            if not isinstance(node, Table):
                self.fail(f"the key `{part}` once more, where no table goes on")
            table = node
        return table

    def open_table(self, table: Table, key: str) -> None:
        found = table.members.setdefault(key, Table("implicit"))
        if not isinstance(found, Table) or found.origin != "implicit":
            self.fail(f"the key `{key}` once more")
        found.origin = "header"

    def open_array(self, table: Table, key: str) -> None:
        found = table.members.setdefault(key, Tables([]))
        if not isinstance(found, Tables):
            self.fail(f"the key `{key}` once more")
        found.members.append(Table("header"))

    def header(self, root: Table) -> List[str]:
        """The header of a table, which is then open; gives the way to it."""
        double = self.sees("[[")
        self.at += 2 if double else 1
        self.skip(WHITE)
        key = self.key()
        self.take("]]" if double else "]", "a header without its end")
        table = self.passed(root, key[:-1])
        (self.open_array if double else self.open_table)(table, key[-1])
        return key

    def document(self) -> Document:
        root, section, lines = Table("header"), [], {}
        self.skip_blank()
        while self.peek():
            line = self.line()
            if self.sees("["):
                section = self.header(root)
                lines.setdefault(section[0], line)
            else:
                key, value = self.pair()
                self.put(self.passed(root, section), key, value)
                lines.setdefault((section or key)[0], line)
            self.skip(WHITE)
            if self.peek() and self.peek() not in "#\n\r":
                self.fail("something behind a value or a header")
            self.skip_blank()
        return Document(closed(root), lines)


def is_scalar(number: int) -> bool:
    return number < 0xD800 or 0xE000 <= number <= 0x10FFFF


def scalar_of(word: str) -> Any:
    """The truth value, number or date that a word writes, or None."""
    if word in ("true", "false"):
        return word == "true"
    if re.match(r"[0-9]+[-:]", word):
        return DateTime(word) if is_date_time(word) else None
    return number_of(word)


def number_of(word: str) -> Any:
    radix, digits = RADIXES.get(word[1:2], (10, "")) if word.startswith("0") else (10, "")
    around = "[0-9a-fA-F]" if radix == 16 else "[0-9]"
    if re.search(rf"(?<!{around})_|_(?!{around})", word):
        return None
    word = word.replace("_", "")
    if digits:
        rest = word[2:]
        return int(rest, radix) if rest and not set(rest) - set(digits) and int(rest, radix) < 2**63 else None
    if SPECIAL.fullmatch(word):
        return float(word)
    found = DECIMAL.fullmatch(word)
    if not found:
        return None
    if found[3] or found[4]:
        return float(word) if abs(float(word)) != float("inf") else None
    return int(word) if -(2**63) <= int(word) < 2**63 else None


def is_time(hour: str, minute: str, second: str) -> bool:
    return int(hour) < 24 and int(minute) < 60 and int(second or 0) <= 60


def is_date_time(word: str) -> bool:
    local = LOCAL_TIME.fullmatch(word)
    if local:
        return is_time(*local.groups())
    found = DATE_TIME.fullmatch(word)
    if not found:
        return False
    year, month, day = map(int, found.groups()[:3])
    # a year 0000 has the days of the year 2000
    if not 1 <= month <= 12 or not 1 <= day <= calendar.monthrange(year or 2000, month)[1]:
        return False
    hour, offset_hour = found[4], found[7]
    return (hour is None or is_time(*found.groups()[3:6])) and (offset_hour is None or is_time(offset_hour, found[8], ""))


def read_document(text: bytes) -> Document:
    """The table that a text is."""
    try:
        return Reader(text.decode("utf-8")).document()
    except UnicodeDecodeError as error:
        raise NoTable(text.count(b"\n", 0, error.start) + 1, "bytes that are no UTF-8") from None
