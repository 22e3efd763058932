"""What EF.CardAccess and EF.CardSecurity keep: SecurityInfos (BSI TR-03110-3), in DER."""

from typing import List, Optional

from telling import tables
from telling.objects import Meaning, Place, take_apart
from telling.parts import Object, Part, count, identifier_words, next_object, objects_in
from telling.tables import MARK

INTEGER, OBJECT_IDENTIFIER, SEQUENCE, SET = 0x02, 0x06, 0x30, 0x31


def number_words(value: bytes) -> str:
    return str(int.from_bytes(value, "big")) if value else "empty"


def parameter_words(value: bytes) -> str:
    number = int.from_bytes(value, "big")
    return f"domain parameters {number}, {tables.DOMAIN_PARAMETERS.get(number, MARK)}"


DER = Place(
    {
        0x01: Meaning("BOOLEAN"),
        INTEGER: Meaning("INTEGER", number_words),
        0x03: Meaning("BIT STRING"),
        0x04: Meaning("OCTET STRING"),
        0x05: Meaning("NULL"),
        OBJECT_IDENTIFIER: Meaning("OBJECT IDENTIFIER", identifier_words),
        SEQUENCE: Meaning("SEQUENCE"),
        SET: Meaning("SET"),
    }
)


def field_part(field: Object, integers_before: int) -> Part:
    """A field of a SecurityInfo: its protocol, its version, and behind that the number of its domain parameters."""
    if field.tag == INTEGER:
        words = parameter_words(field.value) if integers_before else f"version {number_words(field.value)}"
        return Part(f"INTEGER: {words}", field.head, field.value)
    return take_apart(field.bytes(), DER)[0]


def info_part(info: Object) -> Optional[Part]:
    """One SecurityInfo, where it is one."""
    fields = objects_in(info.value)
    if info.tag != SEQUENCE or not fields or fields[0].tag != OBJECT_IDENTIFIER:
        return None
    integers = [sum(field.tag == INTEGER for field in fields[:at]) for at in range(len(fields))]
    return Part("SEQUENCE: a SecurityInfo", info.head, inside=[field_part(*pair) for pair in zip(fields, integers)])


def security_infos(data: bytes) -> List[Part]:
    """A SET of them; other bytes as the objects that they are."""
    whole = next_object(data)
    if whole is None or whole.tag != SET or whole.bytes() != data:
        return take_apart(data, DER)
    infos = [info_part(info) for info in objects_in(whole.value) or []]
    if None in infos or (whole.value and not infos):
        return take_apart(data, DER)
    return [Part(f"SET: {count(len(infos), 'SecurityInfo')}", whole.head, inside=infos)]
