"""Crate address against the independent program."""
import unittest
from collections import Counter
from itertools import product

from against import Cases
from scope import address, utf8
from probe import SEED, Probe


class Address(unittest.TestCase):
    """L6 to L8, L22, L23: what is plain, what is canonical, and whose form it is."""

    def setUp(self):
        self.probe = Probe()
        self.cases = Cases(SEED)
        self.random = self.cases.random

    def same(self, s: bytes) -> bool:
        plain = address.is_plain(s)
        self.assertEqual(self.probe.is_plain(s), plain, s)
        canonical = address.canonical(s)
        self.assertEqual(self.probe.is_canonical(s), plain and canonical == s, s)
        self.assertEqual(self.probe.was_canonical(s), address.is_old_canonical(s), s)
        for room in {0, max(0, len(canonical) - 1), len(canonical), len(canonical) + 3, len(s), 256}:
            out = b"?" * room
            fits = plain and len(canonical) <= room
            expected = (0, len(canonical), canonical + out[len(canonical) :]) if fits else (2, 0, out)
            self.assertEqual(self.probe.canonical(s, out), expected, (s, room))
        return plain

    def test_addresses(self):
        answers = set()
        for _ in range(20_000):
            answers.add(self.same(self.cases.address()))
        self.assertEqual(answers, {False, True})

    def test_names_with_accents_L8_L20_L21(self):
        """Code points at the edges of the map and of UTF-8, alike and nearly so, and names that are not well formed."""
        answers = set()
        for _ in range(20_000):
            s = self.cases.accented() if self.cases.chance(0.6) else self.cases.peer()
            self.assertTrue(self.same(s), s)
            answers.add(self.probe.is_canonical(s))
        self.assertEqual(answers, {False, True})

    def test_each_code_point_L21(self):
        for point in [*range(0x80, 0x800), 0xFFF, 0xD7FF, 0xE000, 0xFFFF, 0x10000, 0x10FFFF, 0x1E9E, 0x212A, 0x2126]:
            letter = chr(point).encode()
            for s in (letter + b"@b", b"A" + letter + b"a@B", letter + b"." + letter + b"@b", letter + b"\xff@b", b"\xc3" + letter + b"@b"):
                self.same(s)

    def test_octets_that_may_be_utf8_L20(self):
        """Each octet from 128 on, alone and with up to three behind it out of those that matter, and a capital."""
        behind = [b"A", b"\x7e", b"\x80", b"\x8f", b"\x90", b"\x9f", b"\xa0", b"\xbf", b"\xc3"]
        texts = [bytes([first]) for first in range(128, 256)]
        for _ in range(4):
            for text in texts:
                self.same("É".encode() + text + "Я@b".encode())
            texts = [text + x for text in texts for x in (behind if len(text) < 3 else self.random.sample(behind, 2))]

    def test_domains_in_other_scripts_L7_L22(self):
        """Labels typed and coded, at the limits and beside them, such as decode and such as do not, and such as are none."""
        answers = Counter()
        for _ in range(20_000):
            s = self.cases.international()
            answers[self.same(s), s.isascii(), len(address.canonical(s)) > len(s)] += 1
        self.assertGreater(min(answers[kind] for kind in product((False, True), (False, True), (False,))), 200, answers)
        self.assertGreater(answers[True, False, True], 5_000, answers)

    def test_labels_L22_L23(self):
        """Labels alone, so that what is compared is coding and lower case; random code points of every length of a label."""
        answers = Counter()
        for many in range(1, 61):
            for low, high in [(0x80, 0x100), (0x80, 0x500), (0x4E00, 0x9FFF), (0x80, 0xD800), (0xE000, 0x110000), (0x10F000, 0x110000)]:
                for ascii in (0, 0.3, 0.9):
                    points = [self.random.choice(b"abyz09-AZ") if self.cases.chance(ascii) else self.random.randrange(low, high) for _ in range(many)]
                    answers[self.same(b"a@" + utf8.encoded(points))] += 1
        for _ in range(2_500):
            for label in (self.cases.script_label(), self.cases.coded_label(), self.cases.limit_label(), self.cases.bad_label()):
                answers[self.same(b"a@" + label)] += 1
        self.assertGreater(min(answers[False], answers[True]), 2_500, answers)

    def test_each_code_point_of_a_label_L21_L22(self):
        for point in [*range(0x80, 0x800), 0xFFF, 0x1E9E, 0x212A, 0x2126, 0x3002, 0xD7FF, 0xE000, 0xFFFE, 0xFFFF, 0x10000, 0x10FFFF]:
            letter = chr(point).encode()
            for s in (b"a@" + letter, b"a@A" + letter + b"-" + letter, b"A@-" + letter, letter + b"@xn--" + letter + b".b"):
                self.same(s)

    def test_labels_that_may_be_utf8_L20_L22(self):
        """As above, behind the `@`: the same octets, with a letter on each side, parted by a dot, and alone."""
        behind = [b"A", b"-", b".", b"\x80", b"\x8f", b"\x90", b"\x9f", b"\xa0", b"\xbf", b"\xc3"]
        texts = [bytes([first]) for first in range(128, 256)]
        answers = Counter()
        for _ in range(4):
            for text in texts:
                answers[self.same(b"a@" + text)] += 1
                answers[self.same("a@É".encode() + text + "Я".encode())] += 1
            texts = [text + x for text in texts for x in (behind if len(text) < 3 else self.random.sample(behind, 2))]
        self.assertGreater(min(answers[False], answers[True]), 500, answers)

    def test_long_ones_L6_L7(self):
        """The input has no greatest length: labels and domains of up to 64 KB, of which none is plain above the limits."""
        for s in (b"a@" + "é".encode() * 57, b"a@" + "é".encode() * 58, b"a@" + "é".encode() * 30_000, b"a@" + "é.".encode() * 20_000 + b"b",
                  b"a@" + "\U0010ffff".encode() * 55, b"a@" + ".".join("\U0010ffff" * many for many in (55, 55, 55, 52)).encode(),
                  b"a@" + b"b" * 60_000, b"a@" + b"\xff" * 60_000, "é".encode() * 30_000 + b"@b", b"a@" + b"b." * 30_000 + b"b"):
            self.same(s)

    def test_limits_L6_L7(self):
        for local in (0, 1, 63, 64, 65):
            for label in (0, 1, 62, 63, 64):
                self.same(b"l" * local + b"@" + b"d" * label)
                self.same(b"l" * local + b"@a." + b"d" * label + b".b")
        for length in (252, 253, 254, 255, 256):
            domain = (b"d" * 63 + b".") * 4
            self.same(b"l@" + domain[: length - 2])
            self.same(b"l@" + domain[: length - 4] + b".x")

    def test_each_octet_L6_L7(self):
        for x in range(256):
            for s in (b"%c@b", b"a%c@b", b"a%cc@b", b"a@%c", b"a@b%c", b"a@b%cc", b"a@%cb", b"a%cb"):
                self.same(s % x)

    def test_small_texts(self):
        """Every text of up to six octets out of those that matter."""
        texts = [b""]
        for _ in range(6):
            texts = [text + bytes([x]) for text in texts for x in b"aA.@-"]
            for text in texts:
                self.assertEqual(self.probe.is_plain(text), address.is_plain(text), text)

    def test_has_form_L8(self):
        for _ in range(5_000):
            a = self.cases.address()
            spelled = self.cases.spelled(a) if a.count(b"@") == 1 else a
            for b in (a.upper(), a.swapcase(), spelled, self.cases.mutate(a), self.cases.address()):
                form = address.canonical(b)
                expected = address.is_plain(a) and address.canonical(a) == form
                self.assertEqual(self.probe.has_form(a, form), expected, (a, form))


if __name__ == "__main__":
    unittest.main()
