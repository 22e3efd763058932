"""Lines whose words were written by hand: names of the standards' tables, and what the guide says of the examples."""

from telling import Refused
from telling.certificates import certificate_lines
from telling.images import image_lines
from telling.lines import tell_moments
from telling.templates import rights_words, role_of, template_lines
from telling.text import hex_of
from telling.trace import read_trace
from tests.looking import TOP, begins, holds, same

# Of examples/full-session/trace.txt: the front of a line (the first one that has it), its words, and those of its parts by their
# bytes. Names of commands, tags and identifiers are those of ISO/IEC 7816-4 and BSI TR-03110-3.
FULL_SESSION = (
    ("on 0", "Power on: a new session begins, and the record found has the commit number 0.", {}),
    (
        "apdu 0022c1a424",
        "Received unprotected: no channel is open.",
        {"00": "interindustry class", "22": "MANAGE SECURITY ENVIRONMENT", "24": "length of the body: 36"},
    ),
    (
        " plain 00 22 c1a4",
        "MSE:Set AT for PACE; no answer data expected.",
        {
            "800a 04007f00070202040202": (
                "cryptographic mechanism reference: id-PACE-ECDH-GM-AES-CBC-CMAC-128, 0.4.0.127.0.7.2.2.4.2.2"
            ),
            "8301 03": "reference of the password: the PIN",
            "7f4c12": "certificate holder authorization template",
            "0609 04007f000703010202": "object identifier: id-AT, 0.4.0.127.0.7.3.1.2.2",
        },
    ),
    (
        " plain 10 86 0000 7c00 256",
        "GENERAL AUTHENTICATE of PACE, first step: the encrypted nonce; at most 256 bytes of answer data expected.",
        {"10": "interindustry class, command chaining, more is to come", "7c00": "dynamic authentication data"},
    ),
    (" ask nonce = 374708fff7719dd5979ec875d56cd228", "Draw a nonce.", {"374708fff7719dd5979ec875d56cd228": "the nonce"}),
    (" finished 2", "2 commits finished: a try of the PIN was spent, and all three are given back.", {}),
    (
        " answer 7c1986081cd74679bd54f330870d44454356434141543030303031",
        "Answer, before it is protected: 9000, normal processing.",
        {
            "8608 1cd74679bd54f330": "authentication token of the chip: 8 bytes",
            "870d 44454356434141543030303031": 'certification authority reference, the current trust point: "DECVCAAT00001"',
            "9000": "status: 9000, normal processing",
        },
    ),
    (
        "apdu 0c2281b61d87",
        "Received under secure messaging, in the channel of PACE with the PIN.",
        {
            "0c": "interindustry class, secure messaging with the header in the MAC",
            "8711 017561397bfda597330ccedef9ec744759": (
                "padding-content indicator and cryptogram: 01 (padded by 80 and 00), and 1 encrypted block"
            ),
            "8e08 f8e0d4a58ad8327e": "MAC: 8 bytes",
        },
    ),
    (
        " plain 00 2a 00be 7f4e819c",
        "PSO:Verify Certificate; no answer data expected.",
        {
            "5f2901 00": "certificate profile identifier: version 1",
            "420d 44454356434141543030303031": 'certification authority reference: "DECVCAAT00001"',
            "5f200d 44455445535444563030303031": 'certificate holder reference: "DETESTDV00001"',
            "5f2506 020600010001": "certificate effective date: 2026-01-01",
            "5f2406 020601020301": "certificate expiration date: 2026-12-31",
        },
    ),
    (
        " plain 00 22 81a4",
        "MSE:Set AT for terminal authentication; no answer data expected.",
        {
            "672e": "authenticated auxiliary data",
            "0609 04007f000703010401": "object identifier: id-DateOfBirth, 0.4.0.127.0.7.3.1.4.1",
            "5308 3230303830313031": "discretionary data: 2008-01-01",
            "5308 3230323630313031": "discretionary data: 2026-01-01",
        },
    ),
    (" plain 00 84 0000", "GET CHALLENGE; at most 256 bytes of answer data expected.", {"84": "GET CHALLENGE"}),
    (" plain 00 82 0000", "EXTERNAL AUTHENTICATE; no answer data expected.", {"82": "EXTERNAL AUTHENTICATE"}),
    (
        " plain 00 22 41a4 800a04007f00070202030202",
        "MSE:Set AT for chip authentication; no answer data expected.",
        {
            "800a 04007f00070202030202": (
                "cryptographic mechanism reference: id-CA-ECDH-AES-CBC-CMAC-128, 0.4.0.127.0.7.2.2.3.2.2"
            )
        },
    ),
    (
        " answer 7c14810865be554fa6188b18",
        "Answer, before it is protected: 9000, normal processing.",
        {"8108 65be554fa6188b18": "nonce of the chip: 8 bytes"},
    ),
    ("apdu 0ca4040c1d", "Received under secure messaging, in the channel of chip authentication.", {"a4": "SELECT"}),
    (
        " plain 00 b0 8400",
        "READ BINARY, data group 4; at most 256 bytes of answer data expected.",
        {"8400": "P1 and P2: short identifier 04, data group 4, offset 0"},
    ),
    (
        " answer 4552494b419000",
        "Answer, before it is protected: 9000, normal processing.",
        {"4552494b41": 'what was read: "ERIKA"'},
    ),
    (" plain 80 20 8000 060904007f000703010401", "VERIFY of the age; no answer data expected.", {"80": "proprietary class"}),
    (" plain 00 22 41a4 800a04007f00070202050203", "MSE:Set AT for restricted identification; no answer data expected.", {}),
    ("off", "Power off: the session is over.", {}),
)


def parts_of(parts):
    """Each part by its bytes."""
    found = {}
    for part in parts:
        found[hex_of(part)] = part.words
        found.update(parts_of(part.inside))
    return found


def told_of(example):
    return list(tell_moments(read_trace((TOP / "examples" / example / "trace.txt").read_text())))


def test_a_full_session():
    tellings = [telling for told in told_of("full-session") for telling in told.tellings]
    for front, words, parts in FULL_SESSION:
        telling = next((one for one in tellings if one.line.startswith(front)), None)
        yield front, "there is no such line" if telling is None else same(words, telling.words)
        got = parts_of(telling.parts) if telling else {}
        for data, meaning in parts.items():
            yield f"{front}: {data}", same(meaning, got.get(data))


# A trace of one command, what it is, and the words of its lines ` rule` and ` answer`. The statuses are those of ISO/IEC 7816-4.
REFUSALS = (
    ("00b0840000", "00 b0 8400 - 256", 20, "6982", "No PACE has succeeded in this session.", "security status not satisfied"),
    ("00b0", "none", 1, "6700", "What was received is no command with a body of at most 2,200 bytes.", "wrong length"),
    ("00b0000000", "00 b0 0000 - 256", 12, "6986", "No file is the current one.", "command not allowed: no current file"),
    ("00ff0000", "00 ff 0000 - 0", 5, "6d00", "No command of the chip has this class and instruction.", "instruction code not supported"),
    ("00a40400", "00 a4 0400 - 0", 6, "6a86", "The chip has the instruction, but not with these P1 and P2.", "incorrect parameters P1-P2"),
    ("ffb00000", "ff b0 0000 - 0", 4, "6e00", "The class is neither 00 nor 10 nor 80.", "class not supported"),
    ("0086000000", "00 86 0000 - 256", 9, "6985", "This step is not the next one of the run.", "conditions of use not satisfied"),
    ("00a4020c022f00", "00 a4 020c 2f00 0", 13, "6a82", "The identifier names neither the application nor a file of the chip.", "file or application not found"),
)


def test_refusals():
    for raw, plain, rule, status, why, meaning in REFUSALS:
        text = f"on 0\napdu {raw}\n plain {plain}\n finished 0\n rule {rule}\n answer {status}\n sent {status}\n"
        words = {one.line.split()[0]: one.words for one in list(tell_moments(read_trace(text)))[1].tellings}
        yield f"rule {rule}", same(f"Refused. {why}", words["rule"])
        yield f"status {status}", same(f"Answer, before it is protected: {status.upper()}, {meaning}.", words["answer"])


def test_a_broken_chain():
    """A command that breaks a chain is refused, and the next one counts by itself."""
    text = "on 0\n"
    for raw, plain, rule, status in (
        ("1022c1a40c800a04007f00070202040202", "10 22 c1a4 800a04007f00070202040202 0", 0, "9000"),
        ("00b09c0000", "00 b0 9c00 - 256", 7, "6883"),
        ("0022c1a403830102", "00 22 c1a4 830102 0", 10, "6a80"),
    ):
        text += f"apdu {raw}\n plain {plain}\n finished 0\n rule {rule}\n answer {status}\n sent {status}\n"
    breaking, alone = (told.tellings[1] for told in list(tell_moments(read_trace(text)))[2:])
    broken = "READ BINARY, which breaks the chain of fragments; at most 256 bytes of answer data expected."
    yield "the one that breaks it", same(broken, breaking.words)
    yield "the next one", same("MSE:Set AT for PACE; no answer data expected.", alone.words)
    yield "no whole request", same(([], []), (breaking.joined, alone.joined))


def test_a_chain_of_fragments():
    """Two commands that are one MSE:Set AT; the last one tells the whole body."""
    text = "on 0\n"
    for raw, plain in (
        ("1022c1a40c800a04007f00070202040202", "10 22 c1a4 800a04007f00070202040202 0"),
        ("0022c1a403830102", "00 22 c1a4 830102 0"),
    ):
        text += f"apdu {raw}\n plain {plain}\n finished 0\n rule 0\n answer 9000\n sent 9000\n"
    first, last = (told.tellings[1] for told in list(tell_moments(read_trace(text)))[1:])
    yield "the first", same("Fragment 1 of a request in a chain: MSE:Set AT for PACE; no answer data expected.", first.words)
    yield "the last", same("The last of 2 commands of a chain: MSE:Set AT for PACE; no answer data expected.", last.words)
    yield "the whole", same(["800a04007f00070202040202", "830102"], [part.bytes().hex() for part in last.joined])
    yield "the password", same("reference of the password: the CAN", last.joined[-1].words)


# Commands one after the other, each with its plain form, its rule and status, and its title: which file is the current one.
CURRENT_FILE = (
    ("00b0000000", "00 b0 0000 - 256", 12, "6986", "READ BINARY, no current file"),
    ("00a4020c02011c", "00 a4 020c 011c 0", 0, "9000", "SELECT of a file"),
    ("00b0000000", "00 b0 0000 - 256", 0, "31009000", "READ BINARY, EF.CardAccess"),
    ("00b0840000", "00 b0 8400 - 256", 20, "6982", "READ BINARY, data group 4"),
    ("00b0000100", "00 b0 0001 - 256", 0, "009000", "READ BINARY, EF.CardAccess"),
    ("00a4000c", "00 a4 000c - 0", 0, "9000", "SELECT of the master file"),
    ("00b0000000", "00 b0 0000 - 256", 12, "6986", "READ BINARY, no current file"),
    ("00b09c0000", "00 b0 9c00 - 256", 0, "31009000", "READ BINARY, EF.CardAccess"),
    ("00b0000000", "00 b0 0000 - 256", 0, "31009000", "READ BINARY, EF.CardAccess"),
    ("00b09e0000", "00 b0 9e00 - 256", 13, "6a82", "READ BINARY, no file of the chip"),
)


def test_the_current_file():
    text = "on 0\n"
    for raw, plain, rule, answer, _ in CURRENT_FILE:
        text += f"apdu {raw}\n plain {plain}\n finished 0\n rule {rule}\n answer {answer}\n sent {answer}\n"
    titles = [told.title for told in tell_moments(read_trace(text))]
    yield "titles", same(["Power on", *(row[-1] for row in CURRENT_FILE)], titles)


def test_a_command_that_is_lost_and_one_without_power():
    lost = " finished 1\n rule 0\n answer none\n sent none\n"
    text = f"on 0\napdu 00d691000100\n plain 00 d6 9100 00 0\n{lost}apdu 00b0\n plain none\n{lost.replace('1', '0')}"
    first, second = list(tell_moments(read_trace(text)))[1:]
    yield "lost", same("lost", first.outcome)
    finished = "1 commit finished: the bytes are written. The power was cut in the next one."
    yield "finished", same(finished, first.tellings[2].words)
    yield "no answer", same("No answer: the power was cut in a commit.", first.tellings[4].words)
    yield "without power", same("Received while the chip has no power.", second.tellings[0].words)


def test_sessions_and_phases():
    """The phases of the full session in their order, as its README tells them."""
    told = told_of("full-session")
    phases = [one.phase for at, one in enumerate(told) if at == 0 or one.phase != told[at - 1].phase]
    expected = ["Power", "PACE with the PIN", "Certificates", "Terminal authentication", "Chip authentication", "Files"]
    yield "phases", same([*expected, "Comparisons", "Restricted identification", "Power"], phases)
    yield "one session", same({1}, {one.session for one in told})


# Templates that the guide tells the bits of: BSI TR-03110-4.
TEMPLATES = (
    ("0000009807", 0, "age verification; community ID verification; restricted identification; read data groups 4, 5, 8"),
    ("2000000010", 0, "CAN allowed; write data group 17"),
    (
        "fe1fffff37",
        3,
        "age verification; community ID verification; restricted identification; CAN allowed; PIN management; "
        "read data groups 1 to 21; write data groups 17 to 21",
    ),
    ("8000000100", 2, "read data group 1"),
    ("41e0000000", 1, "no rights"),
)


def test_templates():
    for digits, role, rights in TEMPLATES:
        template = bytes.fromhex(digits)
        yield f"{digits}, role", same(role, role_of(template))
        yield f"{digits}, rights", same(rights, rights_words(template))
    lines = template_lines(bytes.fromhex("41e0000000"))
    yield "bits without meaning", same([f"  bit {bit}: no meaning" for bit in (29, 30, 31, 32)], lines[2:6])
    yield "the role", same("  bits 39, 38: 01, the role of another document verifier", lines[1])


def test_the_certificate_of_the_guide():
    lines = certificate_lines((TOP / "examples/two-certificates/verifier.bin").read_bytes())
    expected = [
        "card verifiable certificate of 227 bytes",
        '  issuer: "DECVCAAT00001"',
        '  holder: "DETESTDV00001"',
        "  role: an official domestic document verifier",
    ]
    yield "front", same(expected, lines[:4])
    yield "dates", same(["  effective: 2026-01-01", "  expiry: 2026-12-31"], lines[5:7])
    yield "key", same("  public key: an uncompressed point, the model coprocessor's of the number 85", lines[7])


# What stands around the certificate of the guide, or instead of it, and the place and the front of the defect.
WRONG_OBJECTS = (
    ("7f2181e3{}00", "byte 231: expected the end of the object 7F21"),
    ("7f2181e4{}00", "byte 231: expected the end of the certificate"),
    ("7f218200e3{}", "byte 0: expected 7F4E"),
    ("7f2181e77f2181e3{}", "byte 4: expected 7F4E"),
    ("7f2100", "byte 3: expected 7F4E"),
)


def test_a_certificate_in_an_object_7f21():
    """Its 227 bytes are E3, so that the object's length takes two bytes more; it is told in the same words."""
    data = (TOP / "examples/two-certificates/verifier.bin").read_bytes()
    alone, around = certificate_lines(data), certificate_lines(b"\x7f\x21\x81\xe3" + data)
    yield "size", same("card verifiable certificate of 227 bytes, in an object 7F21 of 231 bytes", around[0])
    at = alone.index("")
    yield "words", same(alone[1:at], around[1:at])
    yield "object", same("CV certificate  7f2181e3", around[at + 1])
    yield "parts", same([f"    {line}" for line in alone[at + 1 :]], around[at + 2 :])
    for form, why in WRONG_OBJECTS:
        try:
            told = certificate_lines(form.format(data.hex()).encode())[0]
        except Refused as error:
            told = str(error)
        yield form, begins(f"no certificate, by {why}", told)


def test_an_image_in_words():
    lines = image_lines((TOP / "examples/a-try-that-a-cut-does-not-give-back/after.bin").read_bytes())
    yield "tries", same("tries of the PIN: 2 of 3 (usable)", lines[2])
    yield "date", same("date of the chip: 2026-01-01", lines[5])
    yield "current", same('current trust point: "DECVCAAT00001", 44454356434141543030303031', lines[6])
    yield "files", same("EF.CardAccess: 2 bytes", lines[8])


def test_card_access_of_a_real_card():
    told = told_of("card-access-of-a-real-card")
    words = [meaning for one in told for telling in one.tellings for meaning in parts_of(telling.parts).values()]
    for expected in (
        "SET: 1 SecurityInfo",
        "OBJECT IDENTIFIER: id-PACE-ECDH-GM-AES-CBC-CMAC-128, 0.4.0.127.0.7.2.2.4.2.2",
        "INTEGER: version 2",
        "INTEGER: domain parameters 13, brainpoolP256r1",
    ):
        yield expected, holds(expected in words, "it is not told")
