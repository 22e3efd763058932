"""Why the program ended as it did: which file is meant, which line or key of it, and what was expected there."""

import os
import re
import signal
import stat
import subprocess
from dataclasses import dataclass
from typing import Callable, Dict, List, Optional, Tuple

from telling import Refused
from telling.images import SIZE, BadImage, read_image
from telling.keys import first_bad_key, kit_keys, make_keys, plan_keys
from telling.parts import count
from telling.texts import TEXT_LIMIT, answer_defect, first_defect, script_defect

DONE, USAGE, FILE_FAULT, NO_MEMORY, BAD_IMAGE, BAD_SCRIPT, BAD_CONFIG, OUTPUT_FAULT, BAD_ANSWERS = range(9)
ENDINGS = {
    DONE: "all is done",
    USAGE: "the words are those of no command",
    FILE_FAULT: "a file cannot be read or written",
    NO_MEMORY: "memory was asked for and refused",
    BAD_IMAGE: "an image is none",
    BAD_SCRIPT: "a script is none",
    BAD_CONFIG: "a configuration or a plan is none",
    OUTPUT_FAULT: "standard output failed",
    BAD_ANSWERS: "answers are none",
}
# The words of each command behind its name; the last one of `make` and of `kit` is written.
COMMANDS: Dict[str, Tuple[str, ...]] = {
    "run": ("IMAGE", "SCRIPT", "START"),
    "replay": ("IMAGE", "SCRIPT", "ANSWERS"),
    "session": ("IMAGE", "TERMINAL", "START"),
    "big": ("NUMBER",),
    "make": ("CONFIG", "IMAGE"),
    "kit": ("CONFIG", "FILE"),
    "show": ("IMAGE",),
}
# The least and the greatest of each word that is a number; it is the last one of its command.
NUMBERS: Dict[str, Tuple[int, int]] = {"START": (0, 2**64 - 1), "NUMBER": (1, 1000)}


@dataclass
class Reason:
    """What a status means here; None is any, where an input cannot be read once more."""

    status: Optional[int]
    text: str


# ---- words


def usage_reason(words: List[str]) -> Optional[str]:
    """Why the words are those of no command, where they are."""
    for number, word in enumerate(words, 1):
        try:
            word.encode("utf-8")
        except UnicodeEncodeError:
            return f"word {number}: expected a text in UTF-8, found other bytes"
    if not words or words[0] not in COMMANDS:
        return f"word 1: expected one of {', '.join(COMMANDS)}, found {f'`{words[0]}`' if words else 'no word'}"
    names = COMMANDS[words[0]]
    if len(words) - 1 != len(names):
        return f"words behind `{words[0]}`: expected {' '.join(names)}, found {count(len(words) - 1, 'word')}"
    if names[-1] in NUMBERS and not is_number(words[-1], *NUMBERS[names[-1]]):
        least, greatest = NUMBERS[names[-1]]
        wanted = f"a whole number from {least} to {greatest} in decimal, without sign or leading zeros"
        return f"word {len(words)}, {names[-1]}: expected {wanted}, found `{words[-1]}`"
    return None


def is_number(word: str, least: int, greatest: int) -> bool:
    return re.fullmatch("0|[1-9][0-9]{0,19}", word) is not None and least <= int(word) <= greatest


# ---- inputs


def image_reason(name: str, content: bytes) -> Optional[str]:
    try:
        read_image(content)
    except BadImage as error:
        return f"{name}, {error}"
    return None


def line_reason(defect_of: Callable[[bytes], Optional[str]]) -> Callable[[str, bytes], Optional[str]]:
    def reason(name: str, content: bytes) -> Optional[str]:
        defect = first_defect(content, defect_of)
        return f"{name}, line {defect[0]}: {defect[1]}" if defect else None

    return reason


def key_reason(keys_of: Callable) -> Callable[[str, bytes], Optional[str]]:
    def reason(name: str, content: bytes) -> Optional[str]:
        bad = first_bad_key(content, keys_of)
        if bad is None:
            return None
        key = f"key {bad.number}" + (f", {bad.name}" if bad.name else "") + (f", in line {bad.line}" if bad.line else "")
        return f"{name}, {key}: {bad.why}"

    return reason


@dataclass(frozen=True)
class Input:
    """A kind of input: the status that refuses it, how much of it is read, and why it is refused."""

    status: int
    limit: int
    reason: Callable[[str, bytes], Optional[str]]


IMAGE = Input(BAD_IMAGE, SIZE, image_reason)
SCRIPT = Input(BAD_SCRIPT, TEXT_LIMIT, line_reason(script_defect))
ANSWERS = Input(BAD_ANSWERS, TEXT_LIMIT, line_reason(answer_defect))
INPUTS: Dict[str, Tuple[Input, ...]] = {
    "run": (IMAGE, SCRIPT),
    "replay": (IMAGE, SCRIPT, ANSWERS),
    "session": (IMAGE, Input(BAD_CONFIG, TEXT_LIMIT, key_reason(plan_keys))),
    "big": (),
    "make": (Input(BAD_CONFIG, TEXT_LIMIT, key_reason(make_keys)),),
    "kit": (Input(BAD_CONFIG, TEXT_LIMIT, key_reason(kit_keys)),),
    "show": (IMAGE,),
}


def is_pipe(name: str) -> bool:
    return stat.S_ISFIFO(os.stat(name).st_mode)


def read_front(name: str, limit: int) -> bytes:
    """The bytes of a file, and one more than the limit where it is longer."""
    with open(name, "rb") as file:
        return file.read(limit + 1)


def expected_reason(words: List[str]) -> Optional[Reason]:
    """What refuses these words: they themselves, or the first input, from left to right, that cannot be read or is none."""
    usage = usage_reason(words)
    if usage:
        return Reason(USAGE, usage)
    for name, kind in zip(words[1:], INPUTS[words[0]]):
        try:
            if is_pipe(name):
                return Reason(None, f"{name}: a pipe, which is not read a second time")
            content = read_front(name, kind.limit)
        except (OSError, ValueError) as error:
            found = getattr(error, "strerror", None) or error
            return Reason(FILE_FAULT, f"{name}: expected a file that can be read, found: {found}")
        why = kind.reason(name, content)
        if why:
            return Reason(kind.status, why)
    return None


# ---- endings


def written_name(words: List[str]) -> Optional[str]:
    """The file that a command writes, if it writes one."""
    if words[0] in ("big", "show"):
        return None
    return words[-1] if words[0] in ("make", "kit") else words[1]


def reason_of(status: int, words: List[str]) -> str:
    """The reason of an ending in one line."""
    expected = expected_reason(words)
    if expected and expected.status in (status, None):
        return expected.text
    written = None if usage_reason(words) else written_name(words)
    if status == FILE_FAULT and written is not None:
        wanted = "a file that can be written, in a folder that can be written to"
        return f"{written}: expected {wanted}; each input could be read"
    if status == NO_MEMORY:
        return "expected more memory than the process could have, by its limits or the machine's"
    if status == OUTPUT_FAULT:
        return "standard output: expected a place that takes all that is printed, as no full disk and no closed pipe is"
    return "what the files hold now does not say why"


def ending_lines(status: int, words: List[str]) -> List[str]:
    """How the program ended, in words."""
    if status < 0:
        return [f"ended by the signal {signal.Signals(-status).name}"]
    if status == DONE:
        return ["ended with 0: all is done"]
    if status not in ENDINGS:
        return [f"ended with {status}, which is no status of the program"]
    return [f"ended with {status}: {ENDINGS[status]}", f"  {reason_of(status, words)}"]


def run_program(program: str, words: List[str]) -> int:
    """Runs the program as it is, with this standard output; gives its status."""
    try:
        return subprocess.run([program, *words]).returncode
    except OSError as error:
        raise Refused(f"{program} cannot be run: {error.strerror}") from None
