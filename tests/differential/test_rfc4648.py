"""C15: the vectors of RFC 4648, section 10, both ways through the shipped library: decoded as the key data of a message, encoded
as the key of a written field. What comes out is the value that stands in the RFC, and what the independent program says."""
import unittest

import against  # noqa: F401  makes the independent program importable
from library import Library
from scope import base64, keyfield, processing, table as tables, writing
from probe import Probe
from rfc4648 import VECTORS

KEYS = VECTORS[1:]  # no octets are no key
ADDRESS = b"a@b.example"

# what opens a field, by its preference; gossip has none
OPENINGS = {
    False: b"Autocrypt: addr=%s; keydata=\r\n " % ADDRESS,
    True: b"Autocrypt: addr=%s; prefer-encrypt=mutual; keydata=\r\n " % ADDRESS,
    None: b"Autocrypt-Gossip: addr=%s; keydata=\r\n " % ADDRESS,
}

TABLE = bytes(2 * tables.SLOT)
OUT = b"?" * 100


def value(text: bytes) -> bytes:
    return b"addr=a@b.example; keydata=" + text


def message(*fields: bytes) -> bytes:
    return b"From: a@b.example\r\n" + b"".join(fields) + b"\r\n"


class Vectors(unittest.TestCase):
    def setUp(self):
        self.library = Library()
        self.probe = Probe()

    def process(self, outer: bytes, payload: bytes = b"") -> list[tables.Entry | None]:
        """What the table holds after the message, which is taken."""
        got = self.library.process(TABLE, 1000, outer, payload, processing.TAKE)
        self.assertEqual(got, processing.process(TABLE, 1000, outer, payload, processing.TAKE))
        number, _, after = got
        self.assertEqual(number, 0)
        for entry in filter(None, tables.entries(after)):
            start, length = self.library.target_key(after, entry.address, True, False, 0)
            self.assertEqual(after[start : start + length], entry.direct_key or entry.gossip_key or b"")
        return tables.entries(after)

    def test_decode_a_direct_key(self):
        for octets, text in KEYS:
            with self.subTest(text):
                sender, free = self.process(message(b"Autocrypt: " + value(text) + b"\r\n"))
                self.assertEqual((sender.direct_key, free), (octets, None))

    def test_decode_a_gossip_key(self):
        for octets, text in KEYS:
            with self.subTest(text):
                outer = b"From: c@d.example\r\nTo: a@b.example\r\n"
                sender, gossiped = self.process(outer, b"Autocrypt-Gossip: " + value(text) + b"\r\n")
                self.assertEqual((sender.direct_key, gossiped.gossip_key), (None, octets))

    def test_decode_below(self):
        """The reader of a field, and the decoder alone, with just as much room as there are octets, and with more."""
        for octets, text in VECTORS:
            for room in (len(octets), len(octets) + 1, 8):
                with self.subTest(text, room=room):
                    lent = OUT[:room]
                    self.assertEqual(base64.decode(text), octets)
                    self.assertEqual(self.probe.decode(text, lent), (len(octets), octets + lent[len(octets) :]))
                    if octets:
                        self.assertEqual(keyfield.read(value(text)), keyfield.Field(b"a@b.example", False, octets))
                        read = (0, b"a@b.example", False, len(octets), octets + lent[len(octets) :])
                        self.assertEqual(self.probe.read_field(value(text), lent), read)

    def write(self, key: bytes, mutual: bool | None) -> tuple[int, bytes]:
        """The number and the field; behind it the output stays as it was."""
        if mutual is None:
            expected = writing.write_gossip(b"a@b.example", key, len(OUT))
            number, length, out = self.library.write_gossip(b"a@b.example", key, OUT)
        else:
            expected = writing.write_autocrypt(b"a@b.example", key, mutual, len(OUT))
            number, length, out = self.library.write_autocrypt(b"a@b.example", key, mutual, OUT)
        self.assertEqual((number, out[:length], out[length:]), (*expected, OUT[length:]))
        return expected

    def test_encode(self):
        for octets, text in KEYS:
            self.assertEqual(base64.encode(octets), text)
            for mutual, opening in OPENINGS.items():
                with self.subTest(octets, mutual=mutual):
                    self.assertEqual(self.write(octets, mutual), (0, opening + text + b"\r\n"))

    def test_there_and_back(self):
        """C7: a message that carries the written field gives the key back."""
        for octets, _ in KEYS:
            with self.subTest(octets):
                sender, _ = self.process(message(self.write(octets, True)[1]))
                self.assertEqual((sender.direct_key, sender.mutual), (octets, True))

    def test_no_octets(self):
        """The empty vector: what writes refuses such a key (R11); such key data spoils its field (F10), and no other (F13)."""
        for mutual in OPENINGS:
            self.assertEqual(self.write(b"", mutual), (11, b""))
        kind, *_, after = self.probe.read_field(value(b""), OUT)
        self.assertEqual((kind, after, keyfield.read(value(b""))), (1, OUT, None))
        for blanks in (b"", b" ", b"\t", b"\r\n \t"):
            with self.subTest(blanks):
                empty = b"Autocrypt: " + value(blanks) + b"\r\n"
                sender, _ = self.process(message(empty))
                self.assertEqual(sender, tables.Entry(b"a@b.example", last_seen=1000))
                sender, _ = self.process(message(empty, b"Autocrypt: " + value(b"Zg==") + b"\r\n", empty))
                self.assertEqual(sender.direct_key, b"f")


if __name__ == "__main__":
    unittest.main()
