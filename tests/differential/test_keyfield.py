"""Crate keyfield against the independent program: fields good, spoiled in each single way, and mutated."""
import unittest

from against import Cases
from scope import address, base64, keyfield
from probe import SEED, Probe

GOOD = b"addr=bob@b.example; prefer-encrypt=mutual; keydata=Zm9v"


class KeyField(unittest.TestCase):
    """F1 to F11."""

    def setUp(self):
        self.probe = Probe()
        self.cases = Cases(SEED)
        self.random = self.cases.random

    def same(self, value: bytes, room: int = 2048) -> int:
        """The limit is the room, up to 2,048. What a spoiled field leaves in the room means nothing."""
        lent = b"?" * room
        expected = keyfield.read(value)
        kind, its_address, mutual, length, after = self.probe.read_field(value, lent)
        if expected is None or len(expected.key) > room:
            self.assertEqual(kind, 1, value)
        else:
            self.assertEqual((kind, mutual, length), (0, expected.mutual, len(expected.key)), value)
            self.assertEqual(address.canonical(its_address), expected.address, value)
            self.assertEqual(after, expected.key + lent[length:], value)
        return kind

    def test_fields(self):
        answers = set()
        for _ in range(20_000):
            value = self.cases.field_value()
            answers.add(self.same(value))
            answers.add(self.same(value, self.random.choice([0, 1, 2, 3, 100, 2047])))
        self.assertEqual(answers, {0, 1})

    def test_each_octet(self):
        """Each octet at each place of a good field, in its place and between its octets."""
        for at in range(len(GOOD) + 1):
            for x in range(256):
                self.same(GOOD[:at] + bytes([x]) + GOOD[at + 1 :])
                self.same(GOOD[:at] + bytes([x]) + GOOD[at:])

    def test_pieces(self):
        """Every order of up to four pieces."""
        pieces = [b"addr=a@b", b" addr = A@B ", b"keydata=Zm9v", b"prefer-encrypt=mutual", b"prefer-encrypt=x", b"_x=1", b"x=1", b"", b"=", b"_", b"addr=", b"KEYDATA=Zm9v"]
        texts = [[]]
        for _ in range(4):
            texts = [text + [piece] for text in texts for piece in pieces]
            for text in texts:
                self.same(b";".join(text))

    def test_key_limits_F10(self):
        for length in (0, 1, 2, 2047, 2048, 2049, 3000):
            text = base64.encode(bytes(length))
            for room in (length - 1, length, 2048, 4000):
                self.same(b"addr=a@b; keydata=" + text, max(room, 0))


if __name__ == "__main__":
    unittest.main()
