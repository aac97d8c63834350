"""Crate tokens against the independent program: blanks and comments, quoted strings, runs."""
import unittest

from against import Cases
from scope import tokens
from probe import SEED, Probe


class Tokens(unittest.TestCase):
    """L1 to L5."""

    def setUp(self):
        self.probe = Probe()
        self.cases = Cases(SEED)
        self.random = self.cases.random

    def skip(self, s: bytes, at: int) -> bool:
        expected = tokens.skip(s, at)
        self.assertEqual(self.probe.skip(s, at), expected, (s, at))
        return expected is None

    def test_skip(self):
        answers = set()
        for _ in range(20_000):
            s = self.cases.comment_text()
            for at in {0, self.random.randrange(len(s) + 1), len(s)}:
                answers.add(self.skip(s, at))
        self.assertEqual(answers, {False, True})

    def test_depth_L2(self):
        for depth in range(1, 20):
            for inside in (b"", b"x", b"\\)", b"()", b" \\\\"):
                self.skip(b" " + b"(" * depth + inside + b")" * depth + b" x", 0)
                self.skip(b"(" * depth + inside + b")" * (depth - 1), 0)

    def test_long_comments(self):
        """As long as a block may be: one deep, and many in a row."""
        for s in (b"(" + b"x" * 65_534 + b")", b"()" * 32_768, b"((((" * 8_192 + b"))))" * 8_192, b"(" * 65_536):
            self.skip(s, 0)

    def test_each_octet(self):
        for x in range(256):
            one = bytes([x])
            for s in (one, b" " + one, b"(" + one + b")", b"(\\" + one + b")", b"(" + one, b"(\\" + one):
                self.skip(s, 0)
            for s in (b'"' + one + b'"', b'"\\' + one + b'"', b'"' + one, b'"\\' + one):
                self.assertEqual(self.probe.quoted(s, 1), tokens.quoted(s, 0), s)
            for run, end in enumerate((tokens.digits_end, tokens.letters_end, tokens.atom_end)):
                self.assertEqual(self.probe.run_end(one + b"7a", 0, run), end(one + b"7a", 0), x)

    def test_quoted(self):
        answers = set()
        for _ in range(20_000):
            s = self.cases.comment_text()
            for at in [k for k, x in enumerate(s) if x == 34][:3]:
                expected = tokens.quoted(s, at)
                self.assertEqual(self.probe.quoted(s, at + 1), expected, (s, at))
                answers.add(expected is None)
        self.assertEqual(answers, {False, True})

    def test_runs(self):
        for _ in range(10_000):
            s = self.cases.comment_text()
            at = self.random.randrange(len(s) + 1)
            for run, end in enumerate((tokens.digits_end, tokens.letters_end, tokens.atom_end)):
                self.assertEqual(self.probe.run_end(s, at, run), end(s, at), (s, at, run))

    def test_past_the_end(self):
        """The definitions say what a place past the end gives."""
        for s in (b"", b"(", b'"', b"abc"):
            for at in (len(s) + 1, 2**63):
                self.assertEqual(self.probe.skip(s, at), len(s))
                self.assertIsNone(self.probe.quoted(s, at))
                self.assertEqual(self.probe.run_end(s, at, 1), at)


if __name__ == "__main__":
    unittest.main()
