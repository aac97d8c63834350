"""Crate keydata against the independent program: good and damaged texts, room that is enough and room that is not."""
import unittest

from against import Cases
from scope import base64
from probe import SEED, Probe


class Base64(unittest.TestCase):
    """F9, F10 and W4: key data as it is read, and the lines in which it is written."""

    def setUp(self):
        self.probe = Probe()
        self.cases = Cases(SEED)
        self.random = self.cases.random

    def decode(self, text: bytes, out: bytes) -> str:
        octets = base64.decode(text)
        if octets is None:
            expected, case = None, "no Base64"
        elif len(octets) > len(out):
            expected, case = None, "no room"
        else:
            expected, case = (len(octets), octets + out[len(octets) :]), "just enough room" if len(octets) == len(out) else "room"
        self.assertEqual(self.probe.decode(text, out), expected, text)
        return case

    def test_decode(self):
        cases = set()
        for _ in range(20_000):
            text = self.cases.base64_text()
            octets = base64.decode(text)
            length = 64 if octets is None else len(octets)
            room = max(0, length + self.random.choice([-1, 0, 1, 100]))
            cases.add(self.decode(text, self.cases.octets(room).ljust(room, b"?")))
        self.assertEqual(cases, {"no Base64", "no room", "just enough room", "room"})

    def test_each_group_F9(self):
        """Each character at each place of a last group, after a whole one."""
        for place in range(4):
            for x in range(256):
                for group in (b"Zm9v", b"Zm8=", b"Zg=="):
                    text = b"Zm9v" + group[:place] + bytes([x]) + group[place + 1 :]
                    self.decode(text, bytes(8))

    def test_lines_W4(self):
        lengths = list(range(0, 240)) + [2046, 2047, 2048, 2049, 8192]
        for length in lengths:
            key = self.random.randbytes(length)
            lines = base64.lines(key)
            for room, at in ((len(lines), 0), (len(lines) + 3, 0), (len(lines) + 3, 2), (len(lines) + 3, 4)):
                out = self.random.randbytes(room)
                fits = at + len(lines) <= room
                after = out[:at] + lines + out[at + len(lines) :] if fits else out
                expected = (0, at + len(lines), after) if fits else (2, 0, out)
                self.assertEqual(self.probe.lines(key, out, at), expected)
            if lines:
                self.assertEqual(self.probe.lines(key, bytes(len(lines) - 1), 0), (2, 0, bytes(len(lines) - 1)))
            # what is written reads back
            self.assertEqual(self.probe.decode(lines.replace(b"\r\n", b""), bytes(length)), (length, key))


if __name__ == "__main__":
    unittest.main()
