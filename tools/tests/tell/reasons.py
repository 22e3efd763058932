"""Why the program refuses an input: the line or key that was damaged, by hand, and every refused input of the corpus."""

import contextlib
import importlib.machinery
import importlib.util
import os
import pathlib
import re
import tempfile

from corpus.reading import CASE_FILE, case_folders, read_case, steps_of
from telling.keys import first_bad_key, kit_keys, make_keys, plan_keys
from telling.texts import answer_defect, first_defect, script_defect
from telling.why import expected_reason, reason_of
from tests.looking import TOP, begins, holds, same

CHIP = (TOP / "examples/make-an-image/chip.toml").read_text()
KIT = (TOP / "examples/two-certificates/terminal.toml").read_text()
PLAN = (TOP / "examples/a-terminal-reads/terminal.toml").read_text()
MOST, OVER = "00" * 2048, "00" * 2049

# A script, and the number of its first line that is none; None where each is one.
SCRIPTS = (
    ("", None),
    ("on\n#\n\napdu 00B09c0000\noff", None),
    ("on\r\n", 1),
    ("on\n\n# a comment\non \n", 4),
    ("on\nOFF\nof", 2),
    ("apdu 0\n", 1),
    ("apdu \n", 1),
    ("apdu 00b0  9c\n", 1),
    ("apdu 0g\n", 1),
    ("on\napdu " + "00" * 65544 + "\n", None),
    ("on\napdu " + "00" * 65545 + "\n", 2),
    ("cut 1 old\ncut 1000000 fill a5\ncut 1000001 old\n", 3),
    ("cut 0 old\n", 1),
    ("cut 01 old\n", 1),
    ("cut 1 fill a\n", 1),
    ("cut 1 fill\n", 1),
    ("cut 1 half \n", 1),
    ("\n" * 1_048_576, None),
    ("\n" * 1_048_577, 0),
    ("on\n\n\nx", 4),
    ("\ufeffon\n", 1),
)
# The same of answers.
ANSWERS = (
    ("", None),
    (f"nonce {'00' * 16}\n\nchallenge {'Ab' * 8}\npair {'00' * 32} {'04' * 65}\nmap none\nagree none", None),
    (f"verify no\nverify yes\nsign {'00' * 64}\nmap {'04' * 65}\nagree {'00' * 32}\nfault", None),
    ("# a comment\n", 1),
    (f"nonce {'00' * 15}\n", 1),
    (f"fault\nnonce {'00' * 17}\n", 2),
    ("nonce none\n", 1),
    (f"pair {'00' * 32}\n", 1),
    (f"pair {'00' * 32}  {'04' * 65}\n", 1),
    (f"pair {'00' * 32} {'04' * 65} \n", 1),
    ("\n\nverify maybe\n", 3),
    ("map None\n", 1),
    ("agree\n", 1),
    ("fault \n", 1),
    (f"challenge {'0g' * 8}\n", 1),
    ("fault\r\n", 1),
    ("\n" * 1_048_577, 0),
)
# What is put in place of what in a configuration, and the number and line of the key that is then refused, None for no line.
MAKE = (
    ("", "", None),
    ('pin = "123456"', "layout = 2", (1, 1)),
    ('pin = "123456"', 'pin = "123456"\nnumber = 4294967296', (2, 2)),
    ('pin = "123456"', 'pin = "12345"', (3, 1)),
    ('can = "654321"', 'CAN = "654321"', (4, None)),
    ('puk = "0123456789"', "puk = 1234567890", (5, 3)),
    ('puk = "0123456789"', 'puk = "0123456789"\ntries = 4\ncan = 1', (0, 5)),
    ('puk = "0123456789"', 'puk = "0123456789"\ntries = 3.0', (6, 4)),
    ('puk = "0123456789"', 'puk = "0123456789"\nunblocks = true', (7, 4)),
    ('puk = "0123456789"', 'puk = "0123456789"\nactive = "yes"', (8, 4)),
    ('date = "260101"', 'date = "261301"', (9, 4)),
    ('"DECVCAAT00001"', '"DECVCAAT000010000"', (10, 5)),
    ('"FE1FFFFF37"', '"FE1FFFFF"', (11, 6)),
    ('trust_key = "04', 'trust_key = "05', (12, 7)),
    ('pin = "123456"', 'pin = "123456"\nprevious_name = ""', (13, 2)),
    ('pin = "123456"', 'pin = "123456"\nprevious_name = "A"', (14, None)),
    ('pin = "123456"', 'pin = "123456"\nprevious_name = "A"\nprevious_template = "0000000000"', (15, None)),
    ('pin = "123456"', 'pin = "123456"\nprevious_key = "nothing of the kind"', None),
    ("ca_secret", "ca_Secret", (16, None)),
    ('card_access = "3100"', 'card_access = "310"', (18, 10)),
    ('card_access = "3100"', f'card_access = "{MOST}"', None),
    ('card_access = "3100"', f'card_access = "{OVER}"', (18, 10)),
    ('dg4 = "4552494b41"', "dg4 = {}", (23, 13)),
    ('dg4 = "4552494b41"', 'dg22 = "not looked at"', None),
    ('pin = "123456"', 'pin = "123456" # a comment\r', None),
    ('pin = "123456"', "pin = '''123456'''", None),
    ('pin = "123456"', 'pin = "12345\\u0036"', None),
    ('pin = "123456"', 'pin = "123456" "', (0, 1)),
    ('pin = "123456"', 'pin = 12_34_56', (3, 1)),
    ('pin = "123456"', "[a]\nb = 1", (3, None)),
    ('pin = "123456"', f"pin = {'[' * 80}{']' * 80}", (3, 1)),
    ('pin = "123456"', f"pin = {'[' * 81}{']' * 81}", (0, 1)),
    ('pin = "123456"', 'pin = "123456"\nother = 1e400', (0, 2)),
    ('pin = "123456"', 'pin = "123456"\nother = 9223372036854775808', (0, 2)),
    ('pin = "123456"', 'pin = "123456"\npin = "123456"', (0, 2)),
)
KITS = (
    ("", "", None),
    ('issuer = "DETESTDV00001"', 'issuer = "\u00e9"', (1,)),
    ("holder", "Holder", (2,)),
    ('key = "04', 'key = "03', (3,)),
    ('template = "00', 'template = "0', (4,)),
    ('effective = "260101"', 'effective = "260100"', (5,)),
    ('expiry = "261231"', 'expiry = "261232"', (6,)),
    ('sector1 = "42', 'sector1 = "', (7,)),
    ('sector1 = "42', 'sector2 = ""\n# "42', (8,)),
    ("signer_secret", "signer_secrets", (9,)),
)
PLANS = (
    ("", "", None),
    ('password = "pin"', 'can_first = "65432"\npassword = "pin"', (1,)),
    ('password = "pin"', 'password = "PIN"', (2,)),
    ('password = "pin"', 'password = "puk"', (3,)),
    ('template = "0000009807"', 'template = "000000980"', (4,)),
    ("7f4e819c5f2901004", "7f4e819c5f2901014", (5,)),
    ("5f25060206", "5f25060a06", (5,)),
    ("certificates = [", "certificates = [[],", (5,)),
    ("terminal_secret", "secret", (6,)),
    ("chip_key", "chipkey", (7,)),
    ('age = "', 'age = "1', (8,)),
    ('validity = "20260101"', 'validity = "20260001"', (9,)),
    ('password = "pin"', 'password = "pin"\ncommunity = ""', (10,)),
    ("sector =", "sectors =", (12,)),
    ('"ri"', '"dg22"', (12,)),
    ("requests", "asks", (12,)),
)


def lines(texts, defect_of):
    for text, number in texts:
        defect = first_defect(text.encode(), defect_of)
        yield f"{text[:40]!r}", same(number, defect[0] if defect else None)


def test_lines_of_scripts():
    yield from lines(SCRIPTS, script_defect)


def test_lines_of_answers():
    yield from lines(ANSWERS, answer_defect)


def keys(whole, changes, keys_of):
    for old, new, expected in changes:
        if old not in whole:
            yield f"{old!r}", "it does not stand in the example"
            continue
        bad = first_bad_key(whole.replace(old, new, 1).encode(), keys_of)
        got = (bad.number, bad.line)[: len(expected or ())] if bad else None
        yield f"{old!r} as {new[:40]!r}", same(expected, got)


def test_keys_of_configurations():
    whole = "\n".join(line for line in CHIP.splitlines() if line and not line.startswith("#")) + "\n"
    yield from keys(whole, MAKE, make_keys)
    # 35 bytes of the files up to dg8, and 11 files of 2,048, are 22,563; dg17 and dg18 have 15, behind dg16.
    files = "".join(f'dg{number} = "{MOST}"\n' for number in (1, 2, 6, 7, 9, 10, 11, 12, 13, 14, 15))
    for size, expected in ((1422, None), (1423, (37, "dg18")), (1437, (36, "dg17")), (1438, (35, "dg16"))):
        bad = first_bad_key(f'{whole}{files}dg16 = "{"00" * size}"\n'.encode(), make_keys)
        yield f"all files together, {size} in dg16", same(expected, (bad.number, bad.name) if bad else None)
    yield "a text that is too long", same(0, first_bad_key(b"#" * 1_048_577, make_keys).number)
    yield "a text that is no UTF-8", same(0, first_bad_key(b"a = '\xff'", make_keys).number)


def test_keys_of_certificates():
    yield from keys(KIT, KITS, kit_keys)


def test_keys_of_plans():
    yield from keys(PLAN, PLANS, plan_keys)


# ---- what the program's own tests say, which no exit status tells

CALLS = TOP / "crates/eid/src/tests/calls.rt"
REFUSAL = re.compile(r'^    \("((?:script|answers): [^"]*)", ([58]), "([^"]*)", (\d+)\),$', re.MULTILINE)
KIT_KEY = re.compile(r'\(\s*"(\w+)",\s*"([^"]*)",\s*"([^"]*)",\s*(true|false),?\s*\)')


def test_lines_of_the_programs_tests():
    found = REFUSAL.findall(CALLS.read_text())
    yield "there are over 15 of them", holds(len(found) > 15, len(found))
    for shows, status, text, line in found:
        content = text.encode().decode("unicode_escape").encode()
        defect = first_defect(content, script_defect if status == "5" else answer_defect)
        yield shows, same(int(line), defect[0] if defect else None)


def test_keys_of_the_programs_tests():
    """Each key of a certificate with a refused value, and absent."""
    table = KIT_KEY.findall(CALLS.read_text().split("const KIT_KEYS", 1)[1].split("];", 1)[0])
    yield "there are 9 of them", same(9, len(table))
    for number, (name, _, refused, required) in enumerate(table, 1):
        others = "".join(f"{key} = {value}\n" for key, value, _, _ in table if key != name)
        wrong = first_bad_key(f"{others}{name} = {refused}\n".encode(), kit_keys)
        absent = first_bad_key(others.encode(), kit_keys)
        yield f"{name} = {refused[:20]}", same(number, wrong.number if wrong else None)
        yield f"without {name}", same(number if required == "true" else None, absent.number if absent else None)


# Words, and the front of the reason why they are none of a command; None where they are.
WORDS = (
    ((), "word 1: expected one of run, replay, session, big, make, kit, show, found no word"),
    (("fly",), "word 1: expected one of run, replay, session, big, make, kit, show, found `fly`"),
    (("run", "a", "b"), "words behind `run`: expected IMAGE SCRIPT START, found 2 words"),
    (("run", "a", "b", "01"), "word 4, START: expected a whole number from 0 to 18446744073709551615"),
    (("session", "a", "b", "18446744073709551616"), "word 4, START"),
    (("big",), "words behind `big`: expected NUMBER, found 0 words"),
    (("big", "0"), "word 2, NUMBER: expected a whole number from 1 to 1000 in decimal, without sign or leading zeros, found `0`"),
    (("big", "1001"), "word 2, NUMBER"),
    (("big", "01"), "word 2, NUMBER"),
    (("show", "\udcff"), "word 2: expected a text in UTF-8"),
    (("big", "1"), None),
    (("big", "1000"), None),
)


def test_words():
    for words, why in WORDS:
        reason = expected_reason(list(words))
        yield f"{words}, status", same(1 if why else None, reason.status if reason else None)
        if why and reason:
            yield f"{words}", begins(why, reason.text)


@contextlib.contextmanager
def working_folder():
    before = pathlib.Path.cwd()
    with tempfile.TemporaryDirectory() as scratch:
        os.chdir(scratch)
        try:
            yield pathlib.Path(scratch)
        finally:
            os.chdir(before)


def test_files():
    """Inputs are judged from left to right."""
    with working_folder() as scratch:
        (scratch / "bad.bin").write_bytes(b"\1")
        (scratch / "bad.txt").write_text("x")
        (scratch / "image.bin").write_bytes((TOP / "examples/read-card-access/image.bin").read_bytes())
        for words, expected in (
            ("run bad.bin absent 0", "bad.bin, its size: expected 65536 bytes, found 1"),
            ("run image.bin absent 0", "absent: expected a file that can be read, found: No such file or directory"),
            ("run image.bin . 0", ".: expected a file that can be read, found: Is a directory"),
            ("run image.bin bad.txt 0", "bad.txt, line 1: "),
            ("replay image.bin bad.txt bad.txt", "bad.txt, line 1: "),
            ("session image.bin bad.txt 0", "bad.txt, key 0, in line 1: "),
        ):
            yield words, begins(expected, expected_reason(words.split(" ")).text)
        written = reason_of(2, ["make", str(TOP / "examples/make-an-image/chip.toml"), "/no/where"])
        os.mkfifo("pipe")
        yield "a pipe", same("pipe: a pipe, which is not read a second time", reason_of(5, ["run", "image.bin", "pipe", "0"]))
        yield "a file that cannot be written", begins("/no/where: expected a file that can be written", written)


# ---- images

IMAGE = (TOP / "examples/read-card-access/image.bin").read_bytes()
# The place of a byte, what is put there, and the front of the reason; the record begins at byte 128.
CELLS = (
    (0, 2, "image.bin, byte 0: expected 01, the layout, found 02"),
    (64, 0, "image.bin, bytes 64 and 24576: expected A5"),
    (132, 4, "image.bin, byte 132: expected tries, 0 to 3, found 4"),
    (133, 11, "image.bin, byte 133: expected unblockings"),
    (134, 2, "image.bin, byte 134: expected whether the PIN is active"),
    (140, 0x2F, "image.bin, byte 135: expected the PIN in 6 ASCII digits"),
    (146, 0x3A, "image.bin, byte 141: expected the CAN in 6 ASCII digits"),
    (147, 0, "image.bin, byte 147: expected the PUK in 10 ASCII digits"),
    (159, 2, "image.bin, byte 157: expected the date"),
    (192, 17, "image.bin, byte 192: expected the length of the name of the current trust point"),
    (214, 5, "image.bin, byte 214: expected 04"),
    (279, 0, "image.bin, byte 279: expected 01"),
    (407, 2, "image.bin, byte 407: expected 01 or 00"),
    (512, 9, "image.bin, byte 512: expected the length of card_access"),
)


def test_cells():
    with working_folder() as scratch:
        for place, value, expected in CELLS:
            (scratch / "image.bin").write_bytes(IMAGE[:place] + bytes([value]) + IMAGE[place + 1 :])
            reason = expected_reason(["show", "image.bin"])
            got = (reason.status, reason.text[: len(expected)]) if reason else None
            yield f"byte {place}", same((4, expected), got)


# ---- the corpus


def runner():
    """tests/run, whose cases are laid out here without a program."""
    loader = importlib.machinery.SourceFileLoader("cases", str(TOP / "tests/run"))
    module = importlib.util.module_from_spec(importlib.util.spec_from_loader("cases", loader))
    loader.exec_module(module)
    return module


def refused_steps(cases, folder):
    """The runs of a case that an input refuses, each with its files laid out in the working folder, and its status."""
    run = cases.Run(folder, pathlib.Path.cwd(), None)
    for key, value in steps_of(read_case(folder)):
        if key == "before":
            run.files[value.split(" ")[-1]] = IMAGE
        elif key != "words":
            getattr(run, key)(value)
        elif "leaves" in value:
            name, source = value["leaves"].split(" ")
            run.files[name] = run.given(source)
        elif int(value.get("status", "0")) in (1, 4, 5, 6, 8):
            run.lay_out()
            yield value["words"], int(value["status"])
            run.gather()


def test_the_corpus():
    """Each refused input of the cases is refused here with the same status, and the reason names a place."""
    cases, number = runner(), 0
    for folder in case_folders(TOP / "tests"):
        if not re.search("^status: [14568]", (folder / CASE_FILE).read_text(), re.MULTILINE):
            continue
        with working_folder():
            for words, status in refused_steps(cases, folder):
                number += 1
                reason = expected_reason([os.fsdecode(word) for word in cases.words_of(words)])
                yield f"{folder.name}: {words}", same(status, reason.status if reason else None)
    yield "there are over 300 of them", holds(number > 300, number)
