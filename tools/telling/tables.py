"""The names and numbers of the standards, and the words for them.

Identifiers and tags are those of BSI TR-03110-3, the bits of a template those of BSI TR-03110-4, statuses and instructions
those of ISO/IEC 7816-4. The rules by number are the program's own: docs/GUIDE.md has their table.
"""

# What is printed for something that no table here names.
MARK = "(unknown)"

# ---- object identifiers, by their arcs behind bsi-de, 0.4.0.127.0.7

BSI_DE = "0.4.0.127.0.7"

CIPHERS = {1: "3DES-CBC-CBC", 2: "AES-CBC-CMAC-128", 3: "AES-CBC-CMAC-192", 4: "AES-CBC-CMAC-256"}
MAPPINGS = {1: "DH-GM", 2: "ECDH-GM", 3: "DH-IM", 4: "ECDH-IM", 6: "ECDH-CAM"}
AGREEMENTS = {1: "DH", 2: "ECDH"}
HASHES = {1: "SHA-1", 2: "SHA-224", 3: "SHA-256", 4: "SHA-384", 5: "SHA-512"}
RSA_SCHEMES = {1: "v1-5-SHA-1", 2: "v1-5-SHA-256", 3: "PSS-SHA-1", 4: "PSS-SHA-256", 5: "v1-5-SHA-512", 6: "PSS-SHA-512"}


def _family(arcs, names, wording):
    """Identifiers that differ in their last arc."""
    return {f"{arcs}.{last}": wording.format(name) for last, name in names.items()}


OBJECT_IDENTIFIERS = {
    "2.2.1.1": "id-PK-DH",
    "2.2.1.2": "id-PK-ECDH",
    **_family("2.2.2.1", RSA_SCHEMES, "id-TA-RSA-{}"),
    **_family("2.2.2.2", HASHES, "id-TA-ECDSA-{}"),
    **{
        arcs: name
        for last, agreement in AGREEMENTS.items()
        for arcs, name in _family(f"2.2.3.{last}", CIPHERS, f"id-CA-{agreement}-{{}}").items()
    },
    **{
        arcs: name
        for last, mapping in MAPPINGS.items()
        for arcs, name in _family(f"2.2.4.{last}", CIPHERS, f"id-PACE-{mapping}-{{}}").items()
    },
    **{
        arcs: name
        for last, agreement in AGREEMENTS.items()
        for arcs, name in _family(f"2.2.5.{last}", HASHES, f"id-RI-{agreement}-{{}}").items()
    },
    "2.2.2": "id-TA",
    "2.2.3.1": "id-CA-DH",
    "2.2.3.2": "id-CA-ECDH",
    "2.2.4.1": "id-PACE-DH-GM",
    "2.2.4.2": "id-PACE-ECDH-GM",
    "2.2.4.3": "id-PACE-DH-IM",
    "2.2.4.4": "id-PACE-ECDH-IM",
    "2.2.4.6": "id-PACE-ECDH-CAM",
    "2.2.5.1": "id-RI-DH",
    "2.2.5.2": "id-RI-ECDH",
    "2.2.6": "id-CI",
    "2.2.7": "id-eIDSecurity",
    "2.2.8": "id-PT",
    "3.1.2.1": "id-IS",
    "3.1.2.2": "id-AT",
    "3.1.2.3": "id-ST",
    "3.1.3.1": "id-description",
    "3.1.3.2": "id-sector",
    "3.1.4.1": "id-DateOfBirth",
    "3.1.4.2": "id-DateOfExpiry",
    "3.1.4.3": "id-CommunityID",
}

PACE = bytes.fromhex("04007f00070202040202")
TERMINAL_AUTHENTICATION = bytes.fromhex("04007f00070202020203")
CHIP_AUTHENTICATION = bytes.fromhex("04007f00070202030202")
RESTRICTED_IDENTIFICATION = bytes.fromhex("04007f00070202050203")
TEMPLATE_TYPE = bytes.fromhex("04007f000703010202")
BIRTH = bytes.fromhex("04007f000703010401")
EXPIRY = bytes.fromhex("04007f000703010402")
COMMUNITY = bytes.fromhex("04007f000703010403")
SECTOR = bytes.fromhex("04007f000703010302")
APPLICATION = bytes.fromhex("e80704007f00070302")

# ---- the domain parameters that a number stands for (BSI TR-03110-3)

DOMAIN_PARAMETERS = {
    0: "the 1024-bit MODP group with a 160-bit subgroup",
    1: "the 2048-bit MODP group with a 224-bit subgroup",
    2: "the 2048-bit MODP group with a 256-bit subgroup",
    8: "secp192r1",
    9: "brainpoolP192r1",
    10: "secp224r1",
    11: "brainpoolP224r1",
    12: "secp256r1",
    13: "brainpoolP256r1",
    14: "brainpoolP320r1",
    15: "secp384r1",
    16: "brainpoolP384r1",
    17: "brainpoolP512r1",
    18: "secp521r1",
}

# ---- passwords by the reference in 83 (BSI TR-03110-3)

PASSWORDS = {1: "the MRZ", 2: "the CAN", 3: "the PIN", 4: "the PUK"}

# ---- files

FILES = {0x011C: "EF.CardAccess", 0x011D: "EF.CardSecurity", **{0x0100 + n: f"data group {n}" for n in range(1, 22)}}
SHORT_IDENTIFIERS = {identifier & 0xFF: name for identifier, name in FILES.items()}
FILE_KEYS = ("card_access", "card_security", *(f"dg{n}" for n in range(1, 22)))

# ---- the template, bit 0 the lowest of 40

ROLES = {
    0b11: "a CVCA (its certificate is a link)",
    0b10: "an official domestic document verifier",
    0b01: "another document verifier",
    0b00: "a terminal",
}
ROLE_NAMES = {
    0b11: "CVCA",
    0b10: "official domestic document verifier",
    0b01: "other document verifier",
    0b00: "authentication terminal",
}
RIGHTS = {
    0: "age verification",
    1: "community ID verification",
    2: "restricted identification",
    3: "privileged terminal",
    4: "CAN allowed",
    5: "PIN management",
    6: "install certificate",
    7: "install qualified certificate",
    **{7 + n: f"read data group {n}" for n in range(1, 22)},
    **{54 - n: f"write data group {n}" for n in range(17, 22)},
}
WITHOUT_MEANING = range(29, 33)

# ---- statuses; what stands behind the dash is what the chip tells by them

STATUSES = {
    0x9000: "normal processing",
    0x6282: "end of file reached before all expected bytes were read",
    0x6283: "selected reference deactivated: the PIN is not active",
    0x6300: "authentication failed, or the comparison is a no",
    0x63C0: "counter is 0: no try of the PIN is left, it is blocked",
    0x63C1: "counter is 1: one try of the PIN is left, it is suspended",
    0x63C2: "counter is 2: two tries of the PIN are left",
    0x6581: "memory failure: no commit number is left",
    0x6700: "wrong length",
    0x6883: "last command of the chain expected",
    0x6982: "security status not satisfied",
    0x6983: "authentication method blocked",
    0x6984: "reference data not usable",
    0x6985: "conditions of use not satisfied",
    0x6986: "command not allowed: no current file",
    0x6987: "expected secure messaging data objects missing",
    0x6988: "incorrect secure messaging data objects",
    0x6A80: "incorrect parameters in the command data field",
    0x6A82: "file or application not found",
    0x6A84: "not enough memory space in the file",
    0x6A86: "incorrect parameters P1-P2",
    0x6A88: "referenced data not found",
    0x6B00: "wrong parameters P1-P2: offset outside of the file",
    0x6D00: "instruction code not supported",
    0x6E00: "class not supported",
    0x6F00: "no precise diagnosis: the coprocessor failed",
}

# ---- the rules; each sentence says why the command was refused

RULES = {
    1: "What was received is no command with a body of at most 2,200 bytes.",
    2: "A channel is open, and the data objects of secure messaging are missing.",
    3: "The data objects of secure messaging are not the right ones for the next counter.",
    4: "The class is neither 00 nor 10 nor 80.",
    5: "No command of the chip has this class and instruction.",
    6: "The chip has the instruction, but not with these P1 and P2.",
    7: "A chain of fragments is open, and this command does not go on with it.",
    8: "With this command the body of the request has over 2,048 bytes.",
    9: "This step is not the next one of the run.",
    10: "The body does not have the form of the command.",
    11: "The reference is neither that of the CAN nor of the PIN nor of the PUK.",
    12: "No file is the current one.",
    13: "The identifier names neither the application nor a file of the chip.",
    14: "The file is never written: only data groups 17 to 21 are.",
    15: "The PIN is not active.",
    16: "The PIN is blocked: it has no try left.",
    17: "The PIN is suspended: its last try takes a PACE with the CAN directly before, in this session.",
    20: "No PACE has succeeded in this session.",
    21: "The last PACE had no template.",
    22: "Since the last PACE a terminal has already authenticated itself.",
    23: "Neither a trust point nor the document verifier accepted last has this name.",
    24: "No document verifier with a terminal behind it has been accepted.",
    25: "The name is not that of the terminal whose certificate was accepted.",
    26: "No terminal has authenticated itself since the last PACE.",
    27: "Since the last PACE the chip has already authenticated itself.",
    28: "The chip has not authenticated itself since the last PACE.",
    29: "The last PACE was with another password, and no terminal with the right to it manages the PIN.",
    30: "No unblocking by the PUK is left.",
    31: "The last PACE was neither with the PIN, nor with the CAN where all four templates allow the CAN.",
    32: "The eID application is not selected.",
    33: "The right does not stand in all four templates.",
    34: "The terminal announced nothing to compare with under this identifier.",
    35: "The chip keeps nothing in that data group that could be compared.",
    36: "The comparison is a no.",
    37: "The file is absent.",
    38: "The offset lies behind the end of the file.",
    39: "What is to be written would end behind the end of the file.",
    40: "The sector key does not have the hash that the terminal's certificate names for it.",
    41: "The point is not the one that the terminal announced.",
    42: "The certificate was issued by another than the one that was named.",
    43: "The one who was named may not sign a certificate of this role.",
    44: "The link is neither signed by the current trust point nor issued to it.",
    45: "The certificate expired before the chip's date.",
    50: "The coprocessor failed at a question.",
    51: "The terminal's ephemeral point is the chip's own.",
    52: "The coprocessor came to no point.",
    53: "The signature is wrong.",
    54: "The command would commit, and no commit number is left.",
    55: "The terminal's token is wrong: another password, or another secret.",
}

# ---- instructions that are not the chip's (ISO/IEC 7816-4), for commands that it refuses

INSTRUCTIONS = {
    0x04: "DEACTIVATE",
    0x20: "VERIFY",
    0x21: "VERIFY",
    0x22: "MANAGE SECURITY ENVIRONMENT",
    0x24: "CHANGE REFERENCE DATA",
    0x2A: "PERFORM SECURITY OPERATION",
    0x2C: "RESET RETRY COUNTER",
    0x44: "ACTIVATE",
    0x70: "MANAGE CHANNEL",
    0x82: "EXTERNAL AUTHENTICATE",
    0x84: "GET CHALLENGE",
    0x86: "GENERAL AUTHENTICATE",
    0x87: "GENERAL AUTHENTICATE",
    0x88: "INTERNAL AUTHENTICATE",
    0xA4: "SELECT",
    0xB0: "READ BINARY",
    0xB1: "READ BINARY",
    0xB2: "READ RECORD",
    0xC0: "GET RESPONSE",
    0xCA: "GET DATA",
    0xD6: "UPDATE BINARY",
    0xD7: "UPDATE BINARY",
    0xDA: "PUT DATA",
    0xE0: "CREATE FILE",
    0xE4: "DELETE FILE",
}
