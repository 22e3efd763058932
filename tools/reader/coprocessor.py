"""The answers to the chip's questions, as lines of the answers of `eid replay`, on the curve brainpoolP256r1."""

import secrets

from reader import curve

NONCE, CHALLENGE = 16, 8


class NoAnswer(Exception):
    """A question that is none of those that the chip asks."""


def answer(question):
    """The line that answers a question, which stands in a trace between ` ask ` and ` = `."""
    word, *values = question.split(" ")
    known, count = QUESTIONS.get(word, (None, 0))
    if known is None or len(values) != count:
        raise NoAnswer(f"the chip asks what the curve cannot answer: {word}")
    try:
        return f"{word} {known(*values)}"
    except ValueError:
        raise NoAnswer(f"the chip asks with other than bytes: {word}") from None


def nonce():
    return secrets.token_hex(NONCE)


def challenge():
    return secrets.token_hex(CHALLENGE)


def pair(base):
    secret, public = curve.pair(None if base == "-" else bytes.fromhex(base))
    return f"{secret.hex()} {public.hex()}"


def mapped(*values):
    return or_none(curve.mapped(*map(bytes.fromhex, values)))


def agreed(*values):
    return or_none(curve.agree(*map(bytes.fromhex, values)))


def verified(*values):
    return "yes" if curve.verify(*map(bytes.fromhex, values)) else "no"


def or_none(value):
    return "none" if value is None else value.hex()


# What answers a question, and how many values it has.
QUESTIONS = {
    "nonce": (nonce, 0),
    "challenge": (challenge, 0),
    "pair": (pair, 1),
    "map": (mapped, 3),
    "agree": (agreed, 2),
    "verify": (verified, 3),
}
