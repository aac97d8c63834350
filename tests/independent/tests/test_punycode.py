"""L23: Punycode, by the samples of RFC 3492 and beside the codec that Python has."""

import itertools
import random
import unittest

import rfc3492
from scope.punycode import DIGITS, adapted, decode, digit_value, encode, threshold, variable_length

LAST = 0x10FFFF
SURROGATES = range(0xD800, 0xE000)

# Code points of one to four octets, at the ends of each length and beside the surrogates.
EDGES = [0x2D, 0x41, 0x61, 0x7F, 0x80, 0x81, 0xFF, 0x7FF, 0x800, 0xD7FF, 0xE000, 0xFFFF, 0x10000, LAST - 1, LAST]


def codec_encode(points: list[int]) -> bytes:
    return "".join(map(chr, points)).encode("punycode")


def codec_decode(text: bytes) -> list[int] | None:
    """What Python's codec reads, without the surrogates that it lets pass; None where it refuses."""
    try:
        points = [ord(character) for character in text.decode("punycode")]
    except UnicodeError:
        return None
    return None if any(point in SURROGATES for point in points) else points


def drawn(source: random.Random, most: int) -> list[int]:
    """Code points of one script, of several, or from anywhere; some in ASCII, some equal."""
    low, high = source.choice([(0x80, 0x100), (0x400, 0x450), (0x4E00, 0x9FFF), (0x80, LAST + 1), (0x10000, LAST + 1)])
    points = []
    for _ in range(source.randrange(most + 1)):
        kind = source.randrange(8)
        if kind < 2:
            points.append(source.choice(b"abcz019-AZ"))
        elif kind == 2:
            points.append(source.choice(EDGES))
        elif kind == 3 and points:
            points.append(source.choice(points))
        else:
            points.append(source.randrange(low, high))
    return [point for point in points if point not in SURROGATES]


class Samples(unittest.TestCase):
    """Section 7.1, all of it, both ways."""

    def test_coded_L23(self):
        self.assertEqual("".join(rfc3492.SAMPLES), "ABCDEFGHIJKLMNOPQRS")
        for letter in rfc3492.SAMPLES:
            text = rfc3492.text(letter)
            # The capital in sample I is an annotation.
            self.assertEqual(encode(rfc3492.points(letter)), text.lower() if letter == "I" else text, letter)

    def test_decoded_L23(self):
        for letter in rfc3492.SAMPLES:
            points, text = rfc3492.points(letter), rfc3492.text(letter)
            self.assertEqual(decode(text), points, letter)
            # Digits in any case, which leaves what stands before the delimiter.
            basic, delimiter, digits = text.rpartition(b"-")
            for other in (digits.upper(), digits.lower(), digits.swapcase()):
                self.assertEqual(decode(basic + delimiter + other), points, letter)

    def test_the_codec_agrees_L23(self):
        for letter in rfc3492.SAMPLES:
            self.assertEqual(encode(rfc3492.points(letter)), codec_encode(rfc3492.points(letter)), letter)
            self.assertEqual(codec_decode(rfc3492.text(letter)), rfc3492.points(letter), letter)

    def test_the_steps_of_one_sample_L23(self):
        """Section 7.2: the numbers of sample B, each with its digits and the bias behind it."""
        bias, many = 72, 0
        for delta, digits, after in [(19853, b"ihq", 21), (64, b"wc", 20), (37, b"rb", 13), (56, b"4c", 17),
                                     (599, b"v8a", 32), (130, b"8d", 23), (154, b"qg", 25), (46301, b"056p", 84),
                                     (88531, b"qjye", 90)]:
            self.assertEqual(variable_length(delta, bias), digits)
            many += 1
            bias = adapted(delta, many, many == 1)
            self.assertEqual(bias, after, digits)


class Numbers(unittest.TestCase):
    """Sections 3.3, 3.4, 5 and 6.1."""

    def test_digits_L23(self):
        self.assertEqual([digit_value(octet) for octet in b"abz019AZ"], [0, 1, 25, 26, 27, 35, 0, 25])
        self.assertEqual([digit_value(octet) for octet in DIGITS], list(range(36)))
        self.assertEqual([digit_value(octet) for octet in DIGITS.upper()], list(range(36)))
        self.assertEqual(sum(digit_value(octet) is not None for octet in range(256)), 62)

    def test_thresholds_L23(self):
        self.assertEqual([threshold(k, 72) for k in (36, 72, 73, 74, 97, 98, 99, 108, 144)],
                         [1, 1, 1, 2, 25, 26, 26, 26, 26])
        self.assertEqual([threshold(k, 0) for k in (36, 72)], [26, 26])
        self.assertEqual([threshold(k, 21) for k in (36, 72)], [15, 26])

    def test_bias_L23(self):
        for (delta, many, first), bias in [((0, 1, True), 0), ((699, 1, True), 0), ((700, 1, True), 1),
                                           ((455, 1, False), 33), ((456, 1, False), 45), ((455 * 700, 2, True), 48),
                                           ((1, 5, False), 0)]:
            self.assertEqual(adapted(delta, many, first), bias, (delta, many, first))

    def test_each_number_has_its_own_digits_L23(self):
        for bias in (0, 1, 21, 72, 90, 200):
            texts = {variable_length(number, bias) for number in range(5000)}
            self.assertEqual(len(texts), 5000)
            # No text opens another one: a number ends by itself.
            self.assertFalse(any(text[:cut] in texts for text in texts for cut in range(1, len(text))))


class Texts(unittest.TestCase):
    def test_small_ones_L23(self):
        for points, text in [([], b""), ([0x61], b"a-"), ([0x2D], b"--"), ([0x2D, 0x2D], b"---"), ([0x80], b"a"),
                             ([0x80, 0x80], b"aa"), ([0x81], b"ba"), ([0xE9], b"9ca"), ([0xE9, 0x2D], b"--9fa"),
                             ([0x2D, 0xE9], b"--bga"), ([LAST], b"dn32g"), ([0xD7FF], b"hb9b"), ([0xE000], b"0y0c"),
                             ([0x41, 0xC9], b"A-hea")]:
            self.assertEqual(encode(points), text)
            self.assertEqual(decode(text), points)

    def test_what_decodes_to_nothing_L23(self):
        for text in [
            # No digit.
            b"a-b_", b"a-\xc3", b"!", b"a b", b"a-b.", b"-> $1.00 <-x",
            # A delimiter that comes first has nothing before it, so it is no digit either.
            b"-", b"-a", b"-abc", b"-9ca",
            # Beyond ASCII before the delimiter.
            b"\xc3\xa9-9ca", b"\x80-a",
            # Cut short.
            b"b", b"z", b"9", b"9c", b"a-b-z", b"dn32", b"kva-z",
            # Surrogates, and what is past the last code point.
            b"ib9b", b"zy0c", b"en32g", b"zzzzzzzz", b"99999a", b"9" * 60, b"z" * 60, b"9" * 60 + b"a",
        ]:
            self.assertIsNone(decode(text), text)
        # Two delimiters: the last one is it, and the other a letter.
        self.assertEqual(decode(b"--a"), [0x80, 0x2D])

    def test_every_text_of_a_few_L23(self):
        """Beside the codec, which passes over a delimiter that comes first, and has surrogates for code points."""
        found = 0
        for length in range(5):
            for octets in itertools.product(b"aAbz9-0", repeat=length):
                text = bytes(octets)
                if text.rfind(b"-") == 0:
                    self.assertIsNone(decode(text), text)
                else:
                    self.assertEqual(decode(text), codec_decode(text), text)
                    found += decode(text) is not None
        self.assertGreater(found, 500)

    def test_random_code_points_L23(self):
        source = random.Random(3492)
        for most in (1, 3, 8, 20, 59):
            for _ in range(800):
                points = drawn(source, most)
                text = encode(points)
                self.assertEqual(text, codec_encode(points), points)
                self.assertEqual(decode(text), points, points)
                # Each code point takes one octet at least.
                self.assertGreaterEqual(len(text), len(points))

    def test_random_texts_L23(self):
        source = random.Random(3493)
        answers = []
        for _ in range(8000):
            if source.randrange(2):
                text = bytes(source.choice(DIGITS + b"ABZ-") for _ in range(source.randrange(1, 12)))
            else:
                text = bytearray(encode(drawn(source, 8)) + b"a")
                text[source.randrange(len(text))] = source.choice(DIGITS + b"-")
                text = bytes(text)
            if text.rfind(b"-") == 0:
                continue
            points = decode(text)
            self.assertEqual(points, codec_decode(text), text)
            if points is not None:
                # It is the code of nothing else.
                basic, delimiter, digits = text.rpartition(b"-")
                self.assertEqual(encode(points), basic + delimiter + digits.lower(), text)
            answers.append(points is None)
        self.assertGreater(min(answers.count(False), answers.count(True)), 1000)

    def test_any_length_L23(self):
        source = random.Random(3494)
        for points in ([0xE9] * 5000, list(range(0x80, 0x400)), list(range(0x400, 0x80, -1)), [LAST, 0x80] * 300,
                       [source.randrange(0xE000, LAST) for _ in range(300)]):
            self.assertEqual(decode(encode(points)), points)
            self.assertEqual(encode(points), codec_encode(points))


if __name__ == "__main__":
    unittest.main()
