"""Crate list against the independent program: generated lists, small lists of every shape, and the lists of real mail."""
import unittest

import mail
from against import Cases
from scope import address, header
from probe import SEED, Probe


class AddressList(unittest.TestCase):
    """L9 to L18."""

    def setUp(self):
        self.probe = Probe()
        self.cases = Cases(SEED)
        self.random = self.cases.random

    def same(self, s: bytes) -> bool:
        expected = address.addresses(s)
        self.assertEqual(self.probe.addresses(s), expected, s)
        self.assertEqual(self.probe.count(s), None if expected is None else len(expected), s)
        one = expected[0] if expected is not None and len(expected) == 1 else None
        self.assertEqual(self.probe.only(s), one, s)
        return expected is None

    def test_lists(self):
        answers = set()
        for _ in range(30_000):
            answers.add(self.same(self.cases.address_list()))
        self.assertEqual(answers, {False, True})

    def test_small_lists(self):
        """Every list of up to five tokens."""
        tokens = [b"a@b", b"x", b".", b'"q"', b"<", b">", b",", b":", b";", b"(c)", b" "]
        texts = [b""]
        for _ in range(5):
            texts = [text + token for text in texts for token in tokens]
            for text in self.random.sample(texts, min(len(texts), 20_000)):
                self.same(text)

    def test_each_octet(self):
        for x in range(256):
            for s in (b"%c", b"a@b%c", b"%ca@b", b"a%c@b", b"<a@b%c>", b"x%c<a@b>", b"g:a@b;%c", b'"%c" <a@b>', b"a@b,%cc@d",
                      b"a@\xc3%c", b"<a@\xc3%c>", b"a@\xc3\xa9%c", b"a@\xc3\xa9%cb", b"a@b,c@%c\xa9"):
                self.same(s % x)

    def test_long_lists_L17(self):
        for s in (b"a@b," * 16_000 + b"c@d", b"x " * 30_000 + b"<a@b>", b"g:;," * 16_000 + b"a@b", b"," * 60_000, b"a" * 60_000, b"a@" * 30_000,
                  "a@é,".encode() * 12_000 + b"c@d", b"a@" + "é".encode() * 30_000, "a@é.".encode() + "é.".encode() * 10_000 + b"b",
                  b"a@b," + b"\xff" * 60_000):
            self.same(s)

    def test_domains_in_other_scripts_L12_L16(self):
        """Lists of a few of them; one that is not plain hides the others."""
        answers = set()
        for _ in range(5_000):
            answers.add(self.same(self.cases.list_of([self.cases.international() for _ in range(self.random.randint(1, 3))])))
        self.assertEqual(answers, {False, True})

    def test_real_mail(self):
        answers = set()
        for block in mail.header_blocks():
            for name, value in header.fields(block) or []:
                if name.lower() in (b"from", b"to", b"cc", b"reply-to", b"sender", b"bcc"):
                    answers.add(self.same(value))
        self.assertEqual(answers, {False, True})


if __name__ == "__main__":
    unittest.main()
