"""The plan of a terminal (docs/GUIDE.md, the plan of a terminal)."""

from dataclasses import dataclass
from typing import Any, Dict, List, Optional

from promise.certificates import Certificate, read_certificate


@dataclass(frozen=True)
class Plan:
    """`announced` has what is announced of age, validity and community, as the bytes that are signed."""

    can_first: Optional[bytes]
    password: str
    value: bytes
    template: Optional[bytes]
    certificates: List[Certificate]
    terminal_secret: bytes
    chip_key: bytes
    announced: Dict[str, bytes]
    sector: Optional[bytes]
    requests: List[str]


def announcements(table: Dict[str, Any]) -> Dict[str, bytes]:
    found = {key: table[key].encode() for key in ("age", "validity") if key in table}
    if "community" in table:
        found["community"] = bytes.fromhex(table["community"])
    return found


def plan_of(table: Dict[str, Any]) -> Plan:
    """The plan of a terminal file's table, which has no defect."""

    def given(key):
        return bytes.fromhex(table[key]) if key in table else None

    return Plan(
        can_first=table["can_first"].encode() if "can_first" in table else None,
        password=table["password"],
        value=table["value"].encode(),
        template=given("template"),
        certificates=[read_certificate(bytes.fromhex(text)) for text in table.get("certificates", [])],
        terminal_secret=given("terminal_secret"),
        chip_key=given("chip_key"),
        announced=announcements(table),
        sector=given("sector"),
        requests=table["requests"],
    )
