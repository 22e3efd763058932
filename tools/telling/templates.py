"""Certificate holder authorization templates: five bytes, in which bits stand for a role and for rights (BSI TR-03110-4)."""

from typing import List

from telling import tables
from telling.parts import count

SIZE = 5


def bits_of(template: bytes) -> List[int]:
    """The numbers of the bits that are set, the lowest first."""
    number = int.from_bytes(template, "big")
    return [bit for bit in range(8 * SIZE) if number >> bit & 1]


def role_of(template: bytes) -> int:
    """Bits 39 and 38."""
    return template[0] >> 6


def rights_of(template: bytes) -> List[int]:
    return [bit for bit in bits_of(template) if bit in tables.RIGHTS]


def ranges_of(numbers: List[int]) -> str:
    """`1, 3 to 5`, of rising numbers."""
    runs = []
    for number in numbers:
        if runs and number == runs[-1][1] + 1:
            runs[-1][1] = number
        else:
            runs.append([number, number])
    return ", ".join(run_words(low, high) for low, high in runs)


def run_words(low: int, high: int) -> str:
    return f"{low} to {high}" if high > low + 1 else f"{low}, {high}" if high > low else str(low)


def rights_words(template: bytes) -> str:
    """The rights in a few words: data groups as ranges."""
    bits = rights_of(template)
    words = [tables.RIGHTS[bit] for bit in bits if bit < 8]
    read = [bit - 7 for bit in bits if 8 <= bit <= 28]
    written = sorted(54 - bit for bit in bits if 33 <= bit <= 37)
    words += [f"read data group{'s' if len(read) > 1 else ''} {ranges_of(read)}"] if read else []
    words += [f"write data group{'s' if len(written) > 1 else ''} {ranges_of(written)}"] if written else []
    return "; ".join(words) or "no rights"


def template_words(template: bytes) -> str:
    """Role and rights in one line."""
    if len(template) != SIZE:
        return f"{count(len(template), 'byte')}, and not {SIZE}"
    return f"{tables.ROLE_NAMES[role_of(template)]}; {rights_words(template)}"


def template_lines(template: bytes) -> List[str]:
    """Role and rights, a line for each bit that is set."""
    role = role_of(template)
    lines = [f"template {template.hex().upper()}", f"  bits 39, 38: {role:02b}, the role of {tables.ROLES[role]}"]
    for bit in bits_of(template):
        if bit in tables.RIGHTS:
            lines.append(f"  bit {bit}: the right to {RIGHT_SENTENCES.get(bit, tables.RIGHTS[bit])}")
        elif bit in tables.WITHOUT_MEANING:
            lines.append(f"  bit {bit}: no meaning")
    return lines if len(lines) > 2 else lines + ["  no rights"]


RIGHT_SENTENCES = {
    0: "age verification",
    1: "community ID verification",
    2: "restricted identification",
    3: "act as a privileged terminal",
    4: "use PACE with the CAN in place of the PIN (CAN allowed)",
    5: "manage the PIN (PIN management)",
    6: "install a certificate",
    7: "install a qualified certificate",
}
