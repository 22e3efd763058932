"""The curve: generic mapping against published numbers, and its arithmetic against that of python3-cryptography."""

import re
import unittest

from cryptography.hazmat.primitives.asymmetric import ec

from reader import coprocessor, curve
from support import CASES

PUBLISHED = CASES / "the-published-worked-example-up-to-the-chips-token/trace.txt"
# Another point than any: the Y half of the generator is one too great.
NO_POINT = curve.point_bytes((curve.G[0], curve.G[1] + 1))
HEX = "[0-9a-f]"
ANSWER = re.compile(
    f"nonce {HEX}{{32}}|challenge {HEX}{{16}}|pair {HEX}{{64}} 04{HEX}{{128}}|map (04{HEX}{{128}}|none)"
    f"|agree ({HEX}{{64}}|none)|verify (yes|no)"
)


def number(value):
    return value.to_bytes(curve.SIZE, "big")


def negative(point):
    x, y = curve.coordinates(point)
    return curve.point_bytes((x, curve.P - y))


def value_of(part):
    return part if part == "-" else bytes.fromhex(part)


def published(word):
    """The published questions of this word with their answers, as lists of bytes."""
    found = re.findall(rf"^ ask {word} (.*) = (.*)$", PUBLISHED.read_text(), re.M)
    assert found, f"no question {word} in {PUBLISHED}"
    return [[[value_of(part) for part in side.split()] for side in row] for row in found]


class Published(unittest.TestCase):
    """The numbers of the worked example of BSI TR-03110, as the case of that name has them."""

    def test_the_base_of_generic_mapping(self):
        for values, (base,) in published("map"):
            self.assertEqual(curve.mapped(*values), base)

    def test_the_points_of_key_pairs_over_the_generator_and_over_the_mapped_base(self):
        bases = []
        for (base,), (secret, public) in published("pair"):
            bases.append(base == "-")
            self.assertEqual(curve.public_point(secret) if base == "-" else curve.times(secret, base), public)
        self.assertEqual(bases, [True, False])

    def test_the_agreed_secrets_of_pace_and_of_chip_authentication(self):
        self.assertEqual(len(published("agree")), 2)
        for values, (shared,) in published("agree"):
            self.assertEqual(curve.agree(*values), shared)


class Arithmetic(unittest.TestCase):
    def test_the_parameters_are_those_of_the_curve(self):
        self.assertEqual(curve.public_point(number(1)), curve.point_bytes(curve.G))
        self.assertEqual(curve.public_point(number(curve.N - 1)), negative(curve.point_bytes(curve.G)))

    def test_products_are_those_of_another_implementation(self):
        near = [*range(1, 20), *(curve.N - low for low in range(1, 20)), *(1 << place for place in range(0, 256, 17))]
        for value in [*map(number, near), *(curve.new_secret() for _ in range(20))]:
            self.assertEqual(curve.times(value, curve.point_bytes(curve.G)), curve.public_point(value))

    def test_products_of_any_point_have_the_agreed_x_half(self):
        for _ in range(10):
            secret, (_, peer) = curve.new_secret(), curve.pair()
            self.assertEqual(curve.times(secret, peer)[1:33], curve.agree(secret, peer))

    def test_both_sides_map_to_one_base(self):
        for nonce in (bytes(16), bytes(15) + b"\1", b"\xff" * 16, curve.new_secret()[:16]):
            (one, one_point), (other, other_point) = curve.pair(), curve.pair()
            base = curve.mapped(nonce, one, other_point)
            self.assertEqual(base, curve.mapped(nonce, other, one_point))
            self.assertIsNotNone(curve.public_key(base))

    def test_a_sum_at_infinity_is_no_point(self):
        five, minus = curve.public_point(number(5)), negative(curve.public_point(number(5)))
        nonce = number(5)[16:]
        self.assertIsNone(curve.mapped(nonce, number(1), minus))
        self.assertEqual(curve.mapped(nonce, number(1), five), curve.public_point(number(10)))
        self.assertEqual(curve.mapped(nonce, number(2), minus), minus)

    def test_bytes_that_are_no_point(self):
        point = curve.point_bytes(curve.G)
        longer, halved = point + b"\0", b"\2" + point[1:33]
        for wrong in (NO_POINT, b"\2" + point[1:], longer, halved, bytes(65), b"\0", b"", b"\4" + b"\xff" * 64):
            self.assertIsNone(curve.public_key(wrong))
            self.assertIsNone(curve.mapped(bytes(16), number(3), wrong))
            self.assertIsNone(curve.agree(number(3), wrong))

    def test_a_secret_that_is_a_multiple_of_the_order_agrees_on_nothing(self):
        for secret in (number(0), number(curve.N)):
            self.assertIsNone(curve.agree(secret, curve.point_bytes(curve.G)))
        self.assertEqual(curve.agree(number(curve.N + 1), curve.point_bytes(curve.G)), number(curve.G[0]))

    def test_secrets_are_drawn_anew_and_below_the_order(self):
        drawn = {curve.new_secret() for _ in range(50)}
        self.assertEqual(len(drawn), 50)
        self.assertTrue(all(0 < int.from_bytes(secret, "big") < curve.N for secret in drawn))


class Signatures(unittest.TestCase):
    def setUp(self):
        self.secret, self.key = curve.pair()
        self.digest = bytes(range(32))
        self.signature = curve.sign(self.secret, self.digest)

    def test_a_signature_of_the_digest_is_right(self):
        self.assertEqual(len(self.signature), 64)
        self.assertTrue(curve.verify(self.key, self.digest, self.signature))

    def test_any_other_is_wrong(self):
        other = curve.pair()[1]
        r, s = self.signature[:32], self.signature[32:]
        self.assertFalse(curve.verify(self.key, bytes(32), self.signature))
        self.assertFalse(curve.verify(other, self.digest, self.signature))
        self.assertFalse(curve.verify(NO_POINT, self.digest, self.signature))
        for wrong in (s + r, bytes(64), r + bytes(32), bytes(32) + s, r + number(curve.N), b"\xff" * 64):
            self.assertFalse(curve.verify(self.key, self.digest, wrong))


class Answers(unittest.TestCase):
    def test_each_question_has_an_answer_of_its_form(self):
        (secret, point), (_, peer) = curve.pair(), curve.pair()
        shown = (secret.hex(), peer.hex())
        questions = ["nonce", "challenge", "pair -", f"pair {point.hex()}", f"map {'07' * 16} {' '.join(shown)}"]
        questions += [f"agree {' '.join(shown)}", f"verify {point.hex()} {'00' * 32} {'11' * 64}"]
        for question in questions:
            answer = coprocessor.answer(question)
            self.assertRegex(answer, f"^({ANSWER.pattern})$")
            self.assertEqual(answer.split()[0], question.split()[0])

    def test_no_point_is_none(self):
        secret = number(7).hex()
        self.assertEqual(coprocessor.answer(f"map {'00' * 16} {secret} {NO_POINT.hex()}"), "map none")
        self.assertEqual(coprocessor.answer(f"agree {secret} {NO_POINT.hex()}"), "agree none")

    def test_the_verdict_is_that_of_the_signature(self):
        secret, key = curve.pair()
        digest = bytes(range(32))
        question = f"verify {key.hex()} {{}} {curve.sign(secret, digest).hex()}"
        self.assertEqual(coprocessor.answer(question.format(digest.hex())), "verify yes")
        self.assertEqual(coprocessor.answer(question.format(bytes(32).hex())), "verify no")

    def test_a_question_that_is_none_has_no_answer(self):
        for question in ("sign 00 00", "nonce 00", "pair", "pair zz", "agree 00", "", "verify"):
            with self.assertRaises(coprocessor.NoAnswer, msg=question):
                coprocessor.answer(question)

    def test_agreement_is_that_of_the_other_side(self):
        (secret, point), other = curve.pair(), ec.generate_private_key(curve.CURVE)
        numbers = other.public_key().public_numbers()
        answer = coprocessor.answer(f"agree {secret.hex()} {curve.point_bytes((numbers.x, numbers.y)).hex()}")
        self.assertEqual(answer, "agree " + other.exchange(ec.ECDH(), curve.public_key(point)).hex())
