"""Crate octets against Python's own octets."""
import random
import unittest

from probe import SEED, Probe


class Octets(unittest.TestCase):
    def setUp(self):
        self.probe = Probe()
        self.random = random.Random(SEED)

    def octets(self, most: int) -> bytes:
        letters = self.random.choice([bytes(range(256)), b"aAzZ@[`{", b"\0", b"\0\0\0\0\1"])
        return bytes(self.random.choice(letters) for _ in range(self.random.randrange(most + 1)))

    def near(self, s: bytes) -> bytes:
        """The run itself, in another case, or changed in one octet."""
        way = self.random.randrange(4)
        if way == 0 or not s:
            return s
        if way == 1:
            return s.swapcase()
        at = self.random.randrange(len(s))
        if way == 2:
            return s[:at] + bytes([self.random.randrange(256)]) + s[at + 1 :]
        return s[:at] + s[at + 1 :]

    def test_compare(self):
        for _ in range(10_000):
            a = self.octets(40)
            b = self.near(a)
            self.assertEqual(self.probe.same(a, b), a == b, (a, b))
            self.assertEqual(self.probe.same_name(a, b), a.lower() == b.lower(), (a, b))
            at = self.random.randrange(len(a) + 3)
            self.assertEqual(self.probe.goes_on(a, at, b[at:]), a[at:].startswith(b[at:]), (a, at, b))

    def test_find(self):
        """An octet at each place of pieces of 32, 8 and 1, from each place on, past the end too."""
        for n in range(1, 100):
            for at in {0, n // 3, n - 1, n}:
                s = b"a" * at + b";" + b"b;" * (n - at)
                for start in {0, at // 2, at, at + 1, len(s), len(s) + 5}:
                    found = s.find(b";", start)
                    expected = max(len(s), start) if found < 0 else found
                    self.assertEqual(self.probe.find_octet(s, start, ord(";")), expected, (s, start))
        for _ in range(5_000):
            s = self.octets(200)
            x, start = self.random.randrange(256), self.random.randrange(len(s) + 3)
            found = s.find(bytes([x]), start)
            self.assertEqual(self.probe.find_octet(s, start, x), max(len(s), start) if found < 0 else found, (s, start, x))

    def test_zeros(self):
        for n in list(range(0, 130)) + [4392, 65536]:
            self.assertTrue(self.probe.is_zero(bytes(n)))
            for at in {0, n // 2, n - 1} if n else ():
                for x in (1, 128, 255):
                    self.assertFalse(self.probe.is_zero(bytes(at) + bytes([x]) + bytes(n - at - 1)))

    def test_writes(self):
        for _ in range(5_000):
            out, src = self.octets(60), self.octets(30)
            at = self.random.randrange(len(out) + 3)
            for lower in (False, True):
                fits = at + len(src) <= len(out)
                text = src.lower() if lower else src
                after = out[:at] + text + out[at + len(src) :] if fits else out
                self.assertEqual(self.probe.put(out, at, src, lower), (fits, after), (out, at, src, lower))
            x = self.random.randrange(256)
            self.assertEqual(self.probe.fill(out, x), bytes([x]) * len(out))

    def test_numbers(self):
        for _ in range(5_000):
            out = self.octets(20)
            at, width = self.random.randrange(22), self.random.randrange(10)
            fits = at + width <= len(out)
            read = int.from_bytes(out[at : at + width], "little") if fits and width <= 8 else None
            self.assertEqual(self.probe.number_at(out, at, width), read, (out, at, width))
            n = self.random.choice([0, 255, 256, 2**64 - 1, self.random.randrange(2**64)])
            text = (n % 256**width).to_bytes(width, "little")
            after = out[:at] + text + out[at + width :] if fits else out
            self.assertEqual(self.probe.put_number(out, at, width, n), (fits, after), (out, at, width, n))


if __name__ == "__main__":
    unittest.main()
