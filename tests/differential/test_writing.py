"""The shipped library's two writers against the independent program: generated arguments, and both ends of each limit."""
import unittest

from against import Cases
from both import Both
from scope import writing
from scope.address import canonical
from probe import SEED, Probe


class Writing(unittest.TestCase):
    """W1 to W6, and refusals 9, 11 and 12."""

    def setUp(self):
        self.both = Both()
        self.cases = Cases(SEED)
        self.random = self.cases.random

    def test_writing(self):
        answers = set()
        for _ in range(10_000):
            answers.add(self.both.write_autocrypt(*self.cases.writing())[0])
            answers.add(self.both.write_gossip(*self.cases.writing_gossip())[0])
        self.assertEqual(answers, {0, 9, 11, 12})

    def test_limits_W6_R9_R11_R12(self):
        """Addresses and keys at both ends of each limit, an output of every length around the field's."""
        domain = b"@" + b".".join([b"d" * 63] * 2) + b"." + b"D" * 61
        addresses = [b"a@b", b"L" * 64 + b"@b", b"l" * 65 + b"@b", b"l" * 64 + domain, b"l" * 64 + domain + b"d", b"", b" a@b", b"\xc3\x84@B",
                     b"a@" + "é".encode() * 57, b"a@" + "é".encode() * 58, "A@BÜCHER.Example".encode(),
                     b"l" * 62 + b"@" + ".".join(["É" * 57] * 3).encode(), b"l" * 63 + b"@" + ".".join(["É" * 57] * 3).encode(),
                     b"a@" + ".".join("\U0010ffff" * many for many in (55, 55, 55, 52)).encode()]
        keys = [self.random.randbytes(n) for n in (0, 1, 2, 3, 56, 57, 58, 113, 114, 115, 2046, 2047, 2048, 2049, 4096)]
        for address in addresses:
            for key in keys:
                for mutual in (False, True):
                    length = len(writing.write_autocrypt(address, key, mutual, 1 << 16)[1])
                    for room in {0, 1, max(0, length - 1), length, length + 1, length + 64}:
                        self.both.write_autocrypt(address, key, mutual, room)
                length = len(writing.write_gossip(address, key, 1 << 16)[1])
                for room in {0, max(0, length - 1), length, length + 1}:
                    self.both.write_gossip(address, key, room)

    def test_example_W2_W6(self):
        """The example of SCOPE; behind it the output stays as it was."""
        field = b"Autocrypt: addr=bob@b.example; prefer-encrypt=mutual; keydata=\r\n Zm9v\r\n"
        self.assertEqual(self.both.library.write_autocrypt(b"Bob@b.example", b"foo", True, b"?" * 80), (0, 71, field.ljust(80, b"?")))

    def test_read_back(self):
        """C6: what is written is read back by the library's own readers, alone and between other fields."""
        probe = Probe()
        for _ in range(2_000):
            address, key, mutual = self.cases.address(), self.cases.good_key(), self.cases.chance(0.5)
            number, length, out = self.both.library.write_autocrypt(address, key, mutual, bytes(4000))
            if number == 9:
                continue
            self.assertEqual(number, 0, (address, key))
            for block in (out[:length], b"To: x@y\r\n" + out[:length] + b"From: " + address + b"\r\n\r\nbody"):
                values = [value for name, value in probe.fields(block) if name == b"Autocrypt"]
                self.assertEqual(len(values), 1)
                kind, its_address, its_mutual, its_length, its_key = probe.read_field(values[0], bytes(2048))
                self.assertEqual((kind, its_address, its_mutual), (0, canonical(address), mutual))
                self.assertEqual(its_key[:its_length], key)


if __name__ == "__main__":
    unittest.main()
