"""The tables of names and numbers against the guide and the definitions of the repository."""

import re

from telling import tables
from telling.why import COMMANDS, INPUTS
from tests.looking import TOP, same


def rows(heading):
    """The rows of the table below a heading of the guide."""
    text = (TOP / "docs/GUIDE.md").read_text().split(f"\n{heading}\n", 1)[1]
    table = re.search(r"\n((?:\|.*\n)+)", text)[1]
    return [[cell.strip() for cell in line.strip("|\n").split(" | ")] for line in table.splitlines()[2:]]


def numbers_of(cell):
    """`42 to 45` and `7` as numbers."""
    low, _, high = cell.partition(" to ")
    return range(int(low), int(high or low) + 1)


def test_rules_are_those_of_the_guide():
    found = [number for row in rows("## Rules") for number in numbers_of(row[0].strip("| "))]
    yield "numbers", same(sorted(found), sorted(tables.RULES))


def test_statuses_are_those_of_the_guide():
    cells = [row[0] for row in rows("### From a status to its rules")]
    found = {int(status, 16) for cell in cells for status in re.findall(r"\b[69][0-9A-F]{3}\b", cell)}
    yield "statuses", same(sorted(found), sorted(tables.STATUSES))


def test_commands_are_those_of_the_guide():
    """Their words, and how many files each reads: those in capitals of the second column."""
    table = rows("## Commands of the program")
    words = {name: " ".join([name, *behind]) for name, behind in COMMANDS.items()}
    yield "words", same([row[0].strip("` ") for row in table], [f"eid {text}" for text in words.values()])
    read = {row[0].split()[1]: len(re.findall(r"\b[A-Z]+\b", row[1])) for row in table}
    yield "inputs", same(read, {name: len(kinds) for name, kinds in INPUTS.items()})


def test_rights_are_those_of_the_definitions():
    text = (TOP / "crates/eid_bits/specs/RightNames.antt").read_text()
    found = {int(bit): name for name, bit in re.findall(r'\(codes "(\w+)", (\d+)\)', text)}
    yield "bits", same(sorted(found), sorted(tables.RIGHTS))
    for bit, name in found.items():
        words = re.sub(r"DG(\d+)", r"DATA_GROUP_\1", name).lower().replace("_", " ").replace("id verification", "ID verification")
        yield f"bit {bit}", same(words.lower(), tables.RIGHTS[bit].lower())


# The identifiers of the definitions, by the names that BSI TR-03110-3 has for them.
IDENTIFIERS = {
    "PaceAes128": "id-PACE-ECDH-GM-AES-CBC-CMAC-128",
    "PaceAes256": "id-PACE-ECDH-GM-AES-CBC-CMAC-256",
    "CaAes128": "id-CA-ECDH-AES-CBC-CMAC-128",
    "CaAes256": "id-CA-ECDH-AES-CBC-CMAC-256",
    "TaSha256": "id-TA-ECDSA-SHA-256",
    "RiSha256": "id-RI-ECDH-SHA-256",
    "AtTemplate": "id-AT",
    "Birth": "id-DateOfBirth",
    "Expiry": "id-DateOfExpiry",
    "Community": "id-CommunityID",
    "Sector": "id-sector",
}


def test_identifiers_are_those_of_the_definitions():
    text = (TOP / "crates/eid_bits/specs/Identifiers.antt").read_text()
    rows_of_text = re.findall(r"known_bytes (\w+) = of_bsi \((.*)\)", text)
    yield "all of them", same(sorted(IDENTIFIERS), sorted(known for known, _ in rows_of_text))
    for known, digits in rows_of_text:
        arcs = ".".join(digits.split(" \u2237 ")[:-1])
        yield known, same(IDENTIFIERS.get(known), tables.OBJECT_IDENTIFIERS.get(arcs))
