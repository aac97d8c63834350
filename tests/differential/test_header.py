"""Page B, crates header and reader against the independent program: generated blocks, blocks at the limit, and the header blocks
of real mail."""
import re
import unittest

import mail
from against import Cases
from scope import header
from probe import SEED, Probe


def fields_before_the_fault(block: bytes) -> list[tuple[bytes, bytes]]:
    """The fields in front of the line that makes a block unreadable."""
    before = b""
    for line in re.findall(rb"[^\n]*\n|[^\n]+", block):
        if header.fields(before + line) is None:
            break
        before += line
    return header.fields(before)


class Header(unittest.TestCase):
    def setUp(self):
        self.probe = Probe()
        self.cases = Cases(SEED)
        self.random = self.cases.random

    def same(self, block: bytes) -> bool:
        expected = header.fields(block)
        self.assertEqual(self.probe.readable(block), expected is not None, block)
        if len(block) <= header.BLOCK_LIMIT:
            self.assertEqual(self.probe.fields(block), expected, block)
            self.assertEqual(self.probe.steps(block), expected, block)
        return expected is None

    def test_blocks(self):
        answers = set()
        for _ in range(20_000):
            answers.add(self.same(self.cases.header_block()))
        self.assertEqual(answers, {False, True})

    def test_numbers_B14(self):
        """The fields by their numbers, up to the first number that has none; all behind it give the same. Where the block is
        unreadable, the fields before the line that makes it so are handed out."""
        broken = 0
        for _ in range(5_000):
            block = self.cases.header_block()[: header.BLOCK_LIMIT]
            found = []
            while isinstance(answer := self.probe.field_number(block, len(found)), tuple):
                found.append(answer)
            expected = header.fields(block)
            self.assertEqual(answer, 1 if expected is None else 0, block)
            self.assertEqual(found, fields_before_the_fault(block) if expected is None else expected, block)
            broken += expected is None and found != []
            for k in (len(found) + 1, 2**64 - 1):
                self.assertEqual(self.probe.field_number(block, k), answer, block)
        self.assertGreater(broken, 100)

    def test_blocks_above_the_limit_B14(self):
        """No field is held back for the length of the block, which only `readable` looks at (B1)."""
        for long in (65_536, 70_000):
            block = b"N:" + b"x" * long + b"\r\nM:y\n z\n\n"
            self.assertFalse(self.probe.readable(block))
            expected = [(b"N", b"x" * long), (b"M", b"y z")]
            self.assertEqual(self.probe.fields(block), expected)
            self.assertEqual(self.probe.steps(block), expected)
            self.assertEqual([self.probe.field_number(block, k) for k in range(3)], [*expected, 0])

    def test_small_blocks(self):
        """Every text of up to six octets out of those that matter."""
        letters = b"A: \r\n"
        texts = [b""]
        for _ in range(6):
            texts = [text + bytes([x]) for text in texts for x in letters]
            for text in texts:
                self.same(text)

    def test_each_octet(self):
        for x in range(256):
            for block in (b"%c:a", b"N%c:a", b"N:a\n%cb", b"N:a\r%c", b"N:%c\n", b"%c\n", b"N:a\n\n%c"):
                self.same(block % x)

    def test_limit_B1(self):
        for length in (65_535, 65_536, 65_537):
            self.same(b"N:" + b"x" * (length - 2))
            self.same(b"N:\n\n" + b"x" * (length - 4))
            self.same((b"N:\n" * length)[:length])

    def test_unfold_room_B9(self):
        for raw in (b"", b"a\r\n", b"a\n b\n", b"\r\r\n"):
            value = raw.replace(b"\r\n", b"\n").replace(b"\n", b"")
            self.assertEqual(self.probe.unfold(raw, b"?" * len(raw)), (0, value))
            if raw:
                self.assertEqual(self.probe.unfold(raw, b"?" * (len(raw) - 1)), (2, b""))

    def test_report_B13(self):
        answers = set()
        for _ in range(5_000):
            value = self.cases.content_type()
            expected = header.is_report(value)
            self.assertEqual(self.probe.is_report(value), expected, value)
            answers.add(expected)
        self.assertEqual(answers, {False, True})
        for x in range(256):
            for value in (b"multipart/report%c" % x, b"%cmultipart/report" % x, b"multipart%creport" % x):
                self.assertEqual(self.probe.is_report(value), header.is_report(value), value)

    def test_real_mail(self):
        blocks = mail.header_blocks()
        self.assertGreaterEqual(len(blocks), mail.MESSAGES)
        readable = sum(not self.same(block) for block in blocks)
        self.assertGreaterEqual(readable, mail.READABLE)
        for block in blocks:
            # B15: with the other line ending
            self.same(block.replace(b"\r\n", b"\n").replace(b"\n", b"\r\n"))


if __name__ == "__main__":
    unittest.main()
