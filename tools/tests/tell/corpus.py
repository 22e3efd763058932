"""All traces, images and certificates of examples/ and tests/: each can be told, nothing in them is unknown, and the parts of a
line are its bytes."""

import re
from typing import List

from telling.certificates import certificate_bytes, certificate_lines, read_certificate
from telling.images import SIZE, image_lines, read_image
from telling.lines import Told, tell_moments
from telling.objects import CERTIFICATE, NOT_HERE, take_apart
from telling.tables import FILE_KEYS, MARK
from telling.text import moment_lines
from telling.trace import read_trace
from tests.looking import TOP, holds, same

FOLDERS = ("examples", "tests")
# Words of a line that are no bytes.
NO_BYTES = {"apdu", "plain", "ask", "sent", "answer", "nonce", "challenge", "pair", "map", "agree", "verify", "sign"}
NO_BYTES |= {"yes", "no", "none", "fault", "-", "="}


def files(pattern):
    return [path for folder in FOLDERS for path in sorted((TOP / folder).glob(f"*/{pattern}"))]


def name_of(path):
    return str(path.relative_to(TOP))


def bytes_of(line: str) -> bytes:
    """The bytes that stand in a line of a trace, one word behind the other."""
    words = line.split()
    if words[0] in ("on", "off", "finished", "rule"):
        return b""
    words = words[:-1] if words[0] == "plain" else words
    return b"".join(bytes.fromhex(word) for word in words if word not in NO_BYTES)


def channel_defect(told: Told):
    """Whether a channel is open can be seen: what is sent in one differs from the answer, but for refusals by rule 2 and 3."""
    moment, words = told.moment, told.tellings[0].words
    if moment.sent is None or moment.rule in (2, 3):
        return None
    is_open = "in the channel of" in words
    return None if is_open == (moment.sent != moment.answer) else f"{words} But it sent {moment.sent.hex()[:40]}"


def trace_defect(text: str):
    """What is wrong with the telling of a trace, where something is."""
    lines: List[str] = []
    for told in tell_moments(read_trace(text)):
        wrong = channel_defect(told)
        if wrong:
            return wrong
        strange = [line for line in moment_lines(told) if told.moment.is_carried_out() and NOT_HERE in line]
        if strange:
            return f"the command was carried out, and yet {strange[0].strip()[:100]}"
        for telling in told.tellings:
            lines.append(telling.line)
            parts = b"".join(part.bytes() for part in telling.parts)
            if parts != bytes_of(telling.line):
                return f"the parts of {telling.line[:60]} are not its bytes"
            if not telling.words:
                return f"no words for {telling.line[:60]}"
        marked = [line for line in moment_lines(told) if MARK in line]
        if marked:
            return f"the mark in {marked[0][:100]}"
    return same(text, "".join(f"{line}\n" for line in lines))


def test_traces():
    found = files("trace*.txt")
    yield "there are over 300 of them", holds(len(found) > 300, len(found))
    for path in found:
        yield name_of(path), trace_defect(path.read_text())


def shown(cells: bytes) -> str:
    """What `show` prints of an image."""
    record = read_image(cells).record
    lines = ["layout 1", f"number {record.number}", f"tries {record.tries}", f"unblocks {record.unblocks}"]
    lines += [f"active {'yes' if record.active else 'no'}", f"date {''.join(map(str, record.date))}"]
    lines += [f"current {record.current.hex()}", f"previous {record.previous.hex() if record.previous else 'none'}"]
    lines += [f"{key} {length}" for key, length in zip(FILE_KEYS, record.lengths) if length is not None]
    return "".join(f"{line}\n" for line in lines)


def test_images():
    found = [path for path in files("*.bin") if path.stat().st_size == SIZE]
    yield "there are over 60 of them", holds(len(found) > 60, len(found))
    for path in found:
        marked = [line for line in image_lines(path.read_bytes()) if MARK in line]
        yield name_of(path), f"the mark in {marked[0]}" if marked else None


SHOWN = re.compile(r"^leaves: (\S+) (\S+)\nwords: show \1\nprints: (\S+)$", re.MULTILINE)


def test_values_of_images():
    """The values of an image are those that `show` prints of it in the cases."""
    found = [(path.parent, *row) for path in files("case.txt") for row in SHOWN.findall(path.read_text())]
    yield "there are over 50 of them", holds(len(found) > 50, len(found))
    for folder, _, image, text in found:
        yield f"{name_of(folder)}, {image}", same((folder / text).read_text(), shown((folder / image).read_bytes()))


def certificates():
    """Every certificate: those in files, in plans, and in the bodies of commands."""
    for path in files("*.bin"):
        data = path.read_bytes()
        if data.startswith(b"\x7f\x4e"):
            yield name_of(path), data
    for path in files("*.toml"):
        if path.name.startswith("terminal"):
            for number, digits in enumerate(re.findall(r'"(7f4e[0-9a-f]+)"', path.read_text()), 1):
                yield f"{name_of(path)}, {number}", bytes.fromhex(digits)


def test_certificates():
    found = list(certificates())
    yield "there are over 40 of them", holds(len(found) > 40, len(found))
    for name, data in found:
        marked = [line for line in certificate_lines(data) if MARK in line]
        yield name, f"the mark in {marked[0]}" if marked else None
        yield f"{name}, parts", same(data, b"".join(part.bytes() for part in take_apart(data, CERTIFICATE)))


def test_certificates_in_hexadecimal():
    data = (TOP / "examples/two-certificates/terminal.bin").read_bytes()
    digits = data.hex().upper()
    spaced = "\n".join(digits[at : at + 32] for at in range(0, len(digits), 32)) + "\n"
    yield "digits", same(data, certificate_bytes(digits.encode()))
    yield "lines of digits", same(data, certificate_bytes(spaced.encode()))
    yield "bytes", same(data, certificate_bytes(data))
    sector = "42546e5b27a3efae861a70051b469c9348065e595ddb8e3f764287aacfef454f"
    yield "the sector", same(sector, read_certificate(data).sectors[0].hex())
