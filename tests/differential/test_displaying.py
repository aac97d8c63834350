"""The shipped library's `display` against the independent program: generated addresses, labels in bulk, outputs of several lengths."""
import unittest
from collections import Counter

from against import Cases
from both import Both
from scope import address, punycode, utf8
from scope.displaying import display
from probe import SEED

ROOM = 1024  # VIENGHULAC_DISPLAY


class Displaying(unittest.TestCase):
    """W11, W12, and refusals 9 and 12. `Both` looks at the answer, at the length, and at all of the output."""

    def setUp(self):
        self.both = Both()
        self.cases = Cases(SEED)
        self.random = self.cases.random

    def shown(self, given: bytes) -> str:
        """The address, into outputs of several lengths; what became of it."""
        number, text = display(given, ROOM)
        for room in {0, max(0, len(text) - 1), len(text), len(text) + 1, ROOM}:
            self.assertEqual(self.both.display(given, room)[0], number or (12 if room < len(text) else 0), given)
        if number:
            return "refused"
        return "as the form" if text == address.canonical(given) else "decoded"

    def test_displays(self):
        """20,000 calls, each with its own length of the output."""
        answers = Counter()
        for _ in range(20_000):
            answers[self.both.display(*self.cases.displaying())[0]] += 1
        self.assertEqual(set(answers), {0, 9, 12})
        self.assertGreater(min(answers.values()), 1_000, answers)

    def test_lengths_of_the_output_W11_R12(self):
        """Exactly enough, one less, none, one more, and 1,024."""
        answers = Counter()
        for _ in range(4_000):
            answers[self.shown(self.cases.international() if self.cases.chance(0.7) else self.cases.address())] += 1
        self.assertEqual(set(answers), {"refused", "as the form", "decoded"})
        self.assertGreater(min(answers.values()), 400, answers)

    def test_codes_L23_W12(self):
        """Labels that open with `xn--`: digits of every length, codes of any code points, and codes that were changed."""
        answers = Counter()
        for _ in range(5_000):
            for label in (self.cases.coded_label(), b"xn--" + self.cases.some(b"abz019-ABZ", 1, 9)):
                answers[self.shown(b"a@" + label)] += 1
        for many in range(1, 60):
            for digits in (b"9", b"z", b"a", b"0", b"9a", b"99a", b"zb"):
                code = (digits * many)[:59]
                for label in (b"xn--" + code, b"xn--" + code[:-1] + b"a", b"xn--b-" + code[:57], b"xn---" + code[:58]):
                    answers[self.shown(b"a@" + label)] += 1
        self.assertEqual(set(answers), {"refused", "as the form", "decoded"})
        self.assertGreater(min(answers.values()), 300, answers)

    def test_small_codes_L23(self):
        """Every text of one or two digits behind `xn--`, and many of three."""
        codes = [b""]
        for _ in range(3):
            codes = [code + bytes([digit]) for code in codes for digit in b"abcdefghijklmnopqrstuvwxyz0123456789-"]
            for code in codes if len(codes) < 2_000 else self.random.sample(codes, 12_000):
                self.both.display(b"a@xn--" + code, ROOM)

    def test_labels_L22_C20(self):
        """Labels of random code points, of every length, typed: shown in lower case, or refused."""
        answers = Counter()
        for many in range(1, 61):
            for low, high in [(0x80, 0x100), (0x80, 0x500), (0x4E00, 0x9FFF), (0x80, 0xD800), (0xE000, 0x110000), (0x10F000, 0x110000)]:
                points = [self.random.choice(b"abyz09-AZ") if self.cases.chance(0.3) else self.random.randrange(low, high) for _ in range(many)]
                number, text = self.both.display(b"a@" + utf8.encoded(points), ROOM)
                answers[number] += 1
                if number == 0:
                    self.assertEqual(text, b"a@" + utf8.encoded([utf8.small(point) for point in points]))
        self.assertEqual(set(answers), {0, 9})
        self.assertGreater(min(answers.values()), 50, answers)

    def test_each_code_point_W12(self):
        """Typed, and by its code, which for a capital is not typed back."""
        for point in [*range(0x80, 0x800), 0xFFF, 0x1E9E, 0x212A, 0x2126, 0x3002, 0xD7FF, 0xE000, 0xFFFE, 0xFFFF, 0x10000, 0x10FFFF]:
            letter = chr(point)
            for given in (letter.encode(), b"xn--" + letter.encode("punycode"), b"xn--" + f"-{letter}".encode("punycode"),
                          b"xn--" + f"A{letter}".encode("punycode"), b"xn--" + f"{letter}b".encode("punycode").upper()):
                self.both.display(b"a@" + given, ROOM)

    def test_surrogates_and_beyond_L23(self):
        """The codes of each surrogate, of what lies beside them, and of what is past U+10FFFF."""
        for point in [*range(0xD7F0, 0xE010), *range(0x10FFF0, 0x110010), 0x120000, 0x1FFFFF, 0x200000, 1 << 31, 1 << 32, 1 << 63, 1 << 64]:
            for points in ([point], [point, 0xE9], [0x62, point], [point, point]):
                self.both.display(b"a@xn--" + punycode.encode(points), ROOM)

    def test_typed_back_C20(self):
        """What the library shows, it shows again, and takes for the same address."""
        shown = 0
        for _ in range(3_000):
            given = self.cases.international()
            number, length, out = self.both.library.display(given, bytes(ROOM))
            if number == 0:
                text = out[:length]
                self.assertEqual(self.both.library.display(text, bytes(ROOM)), (0, length, out), given)
                fields = [self.both.library.write_gossip(one, b"k", bytes(400)) for one in (given, text)]
                self.assertEqual(fields[0], fields[1], given)
                shown += 1
        self.assertGreater(shown, 1_500)


if __name__ == "__main__":
    unittest.main()
