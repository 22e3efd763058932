"""How bytes are taken apart: commands (ISO/IEC 7816-4), data objects and object identifiers (ISO/IEC 8825-1); what commands are
called; and the lines of a trace in their order."""

from telling import Refused
from telling.commands import Command, fields_of, name_of
from telling.parts import arcs_of, next_object, objects_in
from telling.trace import read_trace
from tests.looking import same

# What stands behind a header, its body and its expected length; None where it is none of the seven cases.
TAILS = (
    ("", ("", 0)),
    ("00", ("", 256)),
    ("01", ("", 1)),
    ("02abcd", ("abcd", 0)),
    ("02abcd00", ("abcd", 256)),
    ("ff" + "ab" * 255, ("ab" * 255, 0)),
    ("000000", ("", 65536)),
    ("000100", ("", 256)),
    ("000001ab", ("ab", 0)),
    ("000001ab0000", ("ab", 65536)),
    ("000001ab0010", ("ab", 16)),
    ("000100" + "ab" * 256, ("ab" * 256, 0)),
    ("0000", None),
    ("02ab", None),
    ("02abcd0000", None),
    ("000000ab", None),
    ("000001", ("", 1)),
    ("000001ab00", None),
    ("000002ab", None),
)
# Bytes, the tag of the data object at their front and its value; None where there is none. Lengths are the shortest.
OBJECTS = (
    ("5300", (0x53, "")),
    ("5301abcd", (0x53, "ab")),
    ("5f290100", (0x5F29, "00")),
    ("7f4e00", (0x7F4E, "")),
    ("53817f" + "00" * 127, None),
    ("538180" + "00" * 128, (0x53, "00" * 128)),
    ("538200ff" + "00" * 255, None),
    ("53820100" + "00" * 256, (0x53, "00" * 256)),
    ("5380", None),
    ("5383000001ab", None),
    ("5302ab", None),
    ("53", None),
    ("", None),
    ("5f1e00", None),
    ("5f1f00", (0x5F1F, "")),
    ("5f8000", None),
)
# Object identifiers; the first one is an example of ISO/IEC 8825-1.
IDENTIFIERS = (
    ("813403", "2.100.3"),
    ("04007f00070202040202", "0.4.0.127.0.7.2.2.4.2.2"),
    ("2a864886f70d", "1.2.840.113549"),
    ("", None),
    ("0481", None),
)


def test_the_cases_of_commands():
    for tail, expected in TAILS:
        fields = fields_of(bytes.fromhex(tail))
        yield tail[:20] or "nothing", same(expected, fields and (fields.body.hex(), fields.number_expected()))
        if fields:
            yield f"{tail[:20]}, bytes", same(tail, (fields.length + fields.body + fields.expected).hex())


def test_data_objects():
    for data, expected in OBJECTS:
        found = next_object(bytes.fromhex(data))
        yield data[:20] or "nothing", same(expected, found and (found.tag, found.value.hex()))
    yield "a list", same([0x80, 0x83], [one.tag for one in objects_in(bytes.fromhex("800101830102"))])
    yield "no list", same(None, objects_in(bytes.fromhex("80010183")))


def test_object_identifiers():
    for data, expected in IDENTIFIERS:
        yield data or "nothing", same(expected, arcs_of(bytes.fromhex(data)))


POINT = "04" + "00" * 64
# Every command of the chip, as the guide has them: header, body, name.
COMMANDS = (
    ("00a4040c", "e80704007f00070302", "SELECT of the eID application"),
    ("00a4040c", "a000", "SELECT of an application"),
    ("00a4000c", "3f00", "SELECT of the master file"),
    ("00a4020c", "011c", "SELECT of a file"),
    ("00b08400", "", "READ BINARY"),
    ("00b00010", "", "READ BINARY"),
    ("00d69100", "00", "UPDATE BINARY"),
    ("0022c1a4", "", "MSE:Set AT for PACE"),
    ("10860000", "7c00", "GENERAL AUTHENTICATE of PACE, first step: the encrypted nonce"),
    ("10860000", f"7c438141{POINT}", "GENERAL AUTHENTICATE of PACE, second step: map the nonce"),
    ("10860000", f"7c438341{POINT}", "GENERAL AUTHENTICATE of PACE, third step: perform the key agreement"),
    ("00860000", "7c0a8508" + "00" * 8, "GENERAL AUTHENTICATE of PACE, fourth step: mutual authentication"),
    ("002281b6", "830141", "MSE:Set DST"),
    ("002a00be", "", "PSO:Verify Certificate"),
    ("002281a4", "", "MSE:Set AT for terminal authentication"),
    ("00840000", "", "GET CHALLENGE"),
    ("00820000", "00" * 64, "EXTERNAL AUTHENTICATE"),
    ("002241a4", "800a04007f00070202030202", "MSE:Set AT for chip authentication"),
    ("00860000", f"7c438041{POINT}", "GENERAL AUTHENTICATE of chip authentication"),
    ("002241a4", "800a04007f00070202050203", "MSE:Set AT for restricted identification"),
    ("00860000", "7c02a000", "GENERAL AUTHENTICATE of restricted identification"),
    ("00860000", "7c02a200", "GENERAL AUTHENTICATE of restricted identification"),
    ("002c0203", "313233343536", "RESET RETRY COUNTER, new PIN"),
    ("002c0303", "", "RESET RETRY COUNTER, Unblock PIN"),
    ("002c0202", "313233343536", "RESET RETRY COUNTER, new CAN"),
    ("00441003", "", "ACTIVATE of the PIN"),
    ("00041003", "", "DEACTIVATE of the PIN"),
    ("80208000", "060904007f000703010401", "VERIFY of the age"),
    ("80208000", "060904007f000703010402", "VERIFY of the document validity"),
    ("80208000", "060904007f000703010403", "VERIFY of the community"),
    ("00a40400", "", "a command of no kind of the chip (SELECT)"),
    ("00ff0000", "", "a command of no kind of the chip (no instruction of the chip)"),
)


def test_names_of_commands():
    for header, body, name in COMMANDS:
        cla, ins, p1p2 = int(header[:2], 16), int(header[2:4], 16), int(header[4:], 16)
        yield f"{header} {body[:20]}", same(name, name_of(Command(cla, ins, p1p2, bytes.fromhex(body), 0)))


MOMENT = ("apdu 00b0840000", " plain 00 b0 8400 - 256", " finished 0", " rule 20", " answer 6982", " sent 6982")
# Lines, and the number of the first that is none of a trace; None where they are one.
LINES = (
    ((), None),
    (("on 0", *MOMENT, "off"), None),
    (("on lost", "off", "on 4294967295"), None),
    (MOMENT[:3], None),
    (("on 00",), 1),
    (("on",), 1),
    (("ON 0",), 1),
    ((" rule 0",), 1),
    ((*MOMENT[:2], *MOMENT[3:]), 3),
    ((*MOMENT[:4], MOMENT[5]), 5),
    ((*MOMENT[:5], "off"), 6),
    ((*MOMENT, MOMENT[5]), 7),
    (("apdu 00B0",), 1),
    (("apdu 0",), 1),
    (("apdu 00b0", " plain none "), 2),
    ((*MOMENT[:2], " ask nonce = none = none"), 3),
    ((*MOMENT[:2], " ask nonce 00 = 00"), 3),
    ((*MOMENT[:2], " ask nonce = 00", " ask verify 00 00 00 = no", *MOMENT[2:]), None),
    ((*MOMENT[:4], " answer 69"), 5),
    (("on 0", "", "off"), 2),
)


def test_lines_of_traces():
    for lines, expected in LINES:
        try:
            read_trace("".join(f"{line}\n" for line in lines))
            number = None
        except Refused as error:
            number = int(str(error).split("line ")[1].split(":")[0])
        yield f"{lines}", same(expected, number)
