"""L20 and L21: UTF-8 and the lower case of code points, beside those that Python has."""

import itertools
import random
import unittest

from scope.utf8 import encoded, points, small

LAST = 0x10FFFF
SURROGATES = range(0xD800, 0xE000)

# L21: the four ranges beyond ASCII.
RANGES = [range(0xC0, 0xDF), range(0x391, 0x3AC), range(0x410, 0x430), range(0x400, 0x410)]

# Octets at the ends of what may follow in UTF-8, and a few that may not.
TELLING = [0x41, 0x7F, 0x80, 0x8F, 0x90, 0x9F, 0xA0, 0xBF, 0xC0, 0xC3]


def decoded(octets: bytes) -> list[int] | None:
    """What Python's codec reads; None where it refuses."""
    try:
        return [ord(character) for character in octets.decode("utf-8")]
    except UnicodeDecodeError:
        return None


class WellFormed(unittest.TestCase):
    """L20: the same texts are read as by the codec, and read as the same."""

    def same(self, octets: bytes) -> bool:
        found = points(octets)
        self.assertEqual(found, decoded(octets), octets)
        if found is not None:
            self.assertEqual(encoded(found), octets)
        return found is not None

    def test_code_points_L20(self):
        many = itertools.chain(range(0x3000), range(0x3000, LAST, 97), range(0xD700, 0xE100), range(0xFFF0, 0x10010),
                               range(LAST - 16, LAST + 1))
        for point in many:
            if point not in SURROGATES:
                octets = encoded([point])
                self.assertEqual(octets, chr(point).encode("utf-8"))
                self.assertEqual(points(octets), [point])

    def test_each_octet_and_each_pair_L20(self):
        for first in range(256):
            self.same(bytes([first]))
            for second in range(256):
                self.same(bytes([first, second]))

    def test_three_and_four_octets_L20(self):
        for first in range(0xC0, 0x100):
            for rest in itertools.product(TELLING, repeat=2):
                self.same(bytes([first, *rest]))
            for rest in itertools.product(TELLING, repeat=3):
                self.same(bytes([first, *rest]))

    def test_examples_L20(self):
        for octets in [b"", b"a.b", "Ö.ß".encode(), b"\xc2\x80", b"\xdf\xbf", b"\xe0\xa0\x80", b"\xef\xbf\xbf",
                       b"\xed\x9f\xbf", b"\xee\x80\x80", b"\xf0\x90\x80\x80", b"\xf4\x8f\xbf\xbf"]:
            self.assertIsNotNone(points(octets), octets)
        for octets in [
            # No octet opens with these.
            b"\x80", b"\xbf", b"\xf8\x88\x80\x80\x80", b"\xfc\x84\x80\x80\x80\x80", b"\xfe", b"\xff",
            # More octets than are needed.
            b"\xc0\x80", b"\xc1\x81", b"\xc1\xbf", b"\xe0\x80\x80", b"\xe0\x83\x89", b"\xe0\x9f\xbf",
            b"\xf0\x80\x80\x80", b"\xf0\x8f\xbf\xbf",
            # Surrogates, also in pairs.
            b"\xed\xa0\x80", b"\xed\xaf\xbf", b"\xed\xb0\x80", b"\xed\xbf\xbf", b"\xed\xa0\x80\xed\xb0\x80",
            # Above U+10FFFF.
            b"\xf4\x90\x80\x80", b"\xf5\x80\x80\x80", b"\xf7\xbf\xbf\xbf",
            # Cut short by the end, by a dot, by another letter.
            b"\xc3", b"a\xe1\x80", b"\xf0\x90\x80", b"\xc3.\x89", b"\xe1\x80A", b"\xf0\x90\xc3\x89",
        ]:
            self.assertIsNone(points(octets), octets)
            self.assertIsNone(points(b"a" + octets), octets)
            self.assertIsNone(points("Ö".encode() + octets + "Ö".encode()), octets)

    def test_any_octets_L20(self):
        source = random.Random(20)
        answers = [self.same(source.randbytes(source.randrange(1, 9))) for _ in range(20_000)]
        self.assertEqual(set(answers), {False, True})

    def test_mutated_texts_L20(self):
        source = random.Random(21)
        answers = []
        for _ in range(20_000):
            text = bytearray(self.text(source).encode("utf-8"))
            for _ in range(source.randrange(3)):
                at = source.randrange(len(text))
                kind = source.randrange(4)
                if kind == 0:
                    text[at] ^= 1 << source.randrange(8)
                elif kind == 1:
                    text[at] = source.choice(TELLING + [0xE0, 0xED, 0xF0, 0xF4, 0xFF])
                elif kind == 2:
                    text.insert(at, source.choice(TELLING))
                elif len(text) > 1:
                    del text[at]
            answers.append(self.same(bytes(text)))
        # Both are common, or else little is compared.
        self.assertGreater(min(answers.count(False), answers.count(True)), 2_000)

    def text(self, source: random.Random) -> str:
        """A few code points, as many of each length as of another."""
        ends = [(0x21, 0x7F), (0x80, 0x800), (0x800, 0xD800), (0xE000, 0x10000), (0x10000, LAST + 1)]
        return "".join(chr(source.randrange(*source.choice(ends))) for _ in range(source.randrange(1, 6)))


class LowerCase(unittest.TestCase):
    """L21: inside the ranges the lower case of Python, outside no change."""

    def test_ascii_L21(self):
        for point in range(0x80):
            self.assertEqual(chr(small(point)), chr(point).lower(), hex(point))

    def test_from_0080_to_04FF_L21(self):
        changed = 0
        for point in range(0x80, 0x500):
            inside = any(point in one for one in RANGES)
            expected = chr(point).lower() if inside else chr(point)
            self.assertEqual(chr(small(point)), expected, hex(point))
            changed += small(point) != point
        # Python changes neither U+00D7 nor U+03A2.
        self.assertEqual(changed, sum(map(len, RANGES)) - 2)

    def test_no_other_code_point_L21(self):
        for point in range(0x500, LAST + 1):
            self.assertEqual(small(point), point)

    def test_those_that_are_named_L21(self):
        for point in (0xD7, 0xDF, 0x100, 0x178, 0x386, 0x3A2, 0x460, 0x1E9E):
            self.assertEqual(small(point), point, hex(point))
        for point, other in [(0x41, 0x61), (0x5A, 0x7A), (0xC0, 0xE0), (0xD6, 0xF6), (0xD8, 0xF8), (0xDE, 0xFE),
                             (0x391, 0x3B1), (0x3A1, 0x3C1), (0x3A3, 0x3C3), (0x3AB, 0x3CB), (0x410, 0x430),
                             (0x42F, 0x44F), (0x400, 0x450), (0x40F, 0x45F)]:
            self.assertEqual(small(point), other, hex(point))

    def test_once_is_enough_and_as_many_octets_L21(self):
        for point in range(0x500):
            self.assertEqual(small(small(point)), small(point))
            self.assertEqual(len(encoded([small(point)])), len(encoded([point])))


if __name__ == "__main__":
    unittest.main()
