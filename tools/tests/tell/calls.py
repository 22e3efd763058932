"""The command line of `tools/tell`: its statuses, and its one line for what it cannot tell."""

import random
import subprocess
import sys
import tempfile

from telling import Refused
from telling.certificates import certificate_lines
from telling.images import image_lines
from telling.lines import tell_moments
from telling.trace import read_trace
from tests.looking import TOP, holds, same

TELL = str(TOP / "tools/tell")
TRACE = "examples/full-session/trace.txt"
# Words, the status, and a piece of what is printed or of the complaint.
CALLS = (
    (("trace", TRACE), 0, "MSE:Set AT for PACE"),
    (("trace", "--html", TRACE), 0, "<!doctype html>"),
    (("certificate", "examples/two-certificates/terminal.bin"), 0, "DETERMAT00001"),
    (("template", "0000009807"), 0, "the right to read data group 4"),
    (("image", "examples/full-session/image.bin"), 0, "commit number: 0"),
    (("trace", "absent"), 2, "tell: absent: it cannot be read (No such file or directory)"),
    (("trace", "examples/full-session/image.bin"), 2, "tell: examples/full-session/image.bin: "),
    (("trace", "README.md"), 2, "tell: README.md: no trace, by line 1: expected `on`, `off` or `apdu HEX`"),
    (("certificate", TRACE), 2, "no certificate, by byte 0: expected 7F4E"),
    (("template", "00"), 2, "tell: 00: a template of 5 bytes is expected, in 10 hexadecimal digits"),
    (("image", TRACE), 2, "no image, by its size: expected 65536 bytes, found 11332"),
    (("why", "--program", "/no/where", "show", "x"), 2, "tell: no program at /no/where"),
    (("fly",), 2, "invalid choice"),
)


def called(*words):
    ran = subprocess.run([sys.executable, TELL, *words], cwd=TOP, stdout=subprocess.PIPE, stderr=subprocess.PIPE)
    return ran.returncode, ran.stdout.decode(), ran.stderr.decode()


def test_calls():
    for words, status, piece in CALLS:
        got, printed, complaint = called(*words)
        name = " ".join(words)
        yield f"{name}, status", same(status, got)
        told = complaint if status else printed
        yield f"{name}, words", holds(piece in told, f"expected {piece!r}\n    got      {told[:200]!r}")
        if status == 2 and words[0] != "fly":
            yield f"{name}, one line", same(1, complaint.count("\n"))
            yield f"{name}, nothing printed", same("", printed)


# A program that ends as its first word says, in the place of `eid`.
PROGRAM = "#!/bin/sh\nprintf 'printed\\n'\nexit %d\n"


def test_why_ends_as_the_program():
    """What the program prints is standard output, the reason is standard error, and the status is the program's."""
    with tempfile.NamedTemporaryFile("w", suffix=".sh", delete=False) as file:
        file.write(PROGRAM % 4)
    subprocess.run(["chmod", "+x", file.name], check=True)
    status, printed, complaint = called("why", file.name, "show", TRACE)
    subprocess.run(["rm", file.name], check=True)
    yield "status", same(4, status)
    yield "printed", same("printed\n", printed)
    yield "reason", same(f"ended with 4: an image is none\n  {TRACE}, its size: expected 65536 bytes, found 11332\n", complaint)


def damaged(data: bytes, chance: random.Random) -> bytes:
    changed = bytearray(data)
    for _ in range(chance.randint(1, 4)):
        place = chance.randrange(len(changed))
        changed[place : place + chance.randint(0, 2)] = bytes(chance.randrange(256) for _ in range(chance.randint(0, 2)))
    return bytes(changed)


def test_damaged_files_are_refused_in_one_line():
    """What cannot be told is refused, and nothing else comes of it."""
    chance = random.Random(13)
    trace = (TOP / TRACE).read_bytes()
    certificate = (TOP / "examples/two-certificates/terminal.bin").read_bytes()
    image = (TOP / "examples/full-session/after.bin").read_bytes()
    told = {
        "trace": (trace, lambda data: list(tell_moments(read_trace(data.decode("latin-1"))))),
        "certificate": (certificate, certificate_lines),
        "image": (image[:1000], lambda data: image_lines(data.ljust(65536, b"\0"))),
    }
    for kind, (data, tell) in told.items():
        for number in range(100):
            changed = damaged(data, chance)
            try:
                tell(changed)
            except Refused as error:
                yield f"{kind} {number}", None if "\n" not in str(error) else f"{error}"
            except Exception as error:  # noqa: BLE001
                yield f"{kind} {number}", f"{type(error).__name__}: {error}"
            else:
                yield f"{kind} {number}", None
