"""W1 to W6: writing the two fields; and refusals 9, 11 and 12."""

import unittest

from scope import header, keyfield
from scope.writing import write_autocrypt, write_gossip

EXAMPLE = b"Autocrypt: addr=bob@b.example; prefer-encrypt=mutual; keydata=\r\n Zm9v\r\n"
PLAIN = b"Autocrypt: addr=bob@b.example; keydata=\r\n Zm9v\r\n"
GOSSIP = b"Autocrypt-Gossip: addr=bob@b.example; keydata=\r\n Zm9v\r\n"


class Fields(unittest.TestCase):
    """W2 to W6, and C6: what is written is read back."""

    def test_the_example_W2(self):
        self.assertEqual(write_autocrypt(b"Bob@b.example", b"foo", True, 1000), (0, EXAMPLE))
        self.assertEqual(len(EXAMPLE), 71)

    def test_without_mutual_W3(self):
        self.assertEqual(write_autocrypt(b"bob@b.example", b"foo", False, 1000), (0, PLAIN))

    def test_gossip_W3(self):
        self.assertEqual(write_gossip(b"bob@b.example", b"foo", 1000), (0, GOSSIP))

    def test_the_address_is_written_canonical_W5(self):
        self.assertEqual(write_autocrypt(b"BOB@B.Example", b"foo", True, 1000), (0, EXAMPLE))
        self.assertEqual(write_gossip(b"BOB@B.Example", b"foo", 1000), (0, GOSSIP))
        # L8: letters beyond ASCII too, where the local part is well formed.
        for given, form in [(b"\xc3\x89@B", b"\xc3\xa9@b"), ("ЖΣ×Ÿ@b".encode(), "жσ×Ÿ@b".encode()),
                            (b"\xc3\x89\xffA@B", b"\xc3\x89\xffa@b"),
                            ("A@BÜCHER.Example".encode(), b"a@xn--bcher-kva.example"),
                            (b"a@XN--BCHER-KVA", b"a@xn--bcher-kva")]:
            self.assertEqual(write_gossip(given, b"foo", 1000),
                             (0, b"Autocrypt-Gossip: addr=" + form + b"; keydata=\r\n Zm9v\r\n"))
            self.assertEqual(write_autocrypt(given, b"foo", False, 1000),
                             (0, b"Autocrypt: addr=" + form + b"; keydata=\r\n Zm9v\r\n"))

    def test_lines_of_76_characters_W4(self):
        for length, tail in [(57, b" " + b"A" * 76 + b"\r\n"),
                             (58, b" " + b"A" * 76 + b"\r\n AA==\r\n"),
                             (1, b" AA==\r\n"),
                             (114, (b" " + b"A" * 76 + b"\r\n") * 2)]:
            number, field = write_gossip(b"a@b", bytes(length), 1000)
            self.assertEqual((number, field), (0, b"Autocrypt-Gossip: addr=a@b; keydata=\r\n" + tail))

    def test_what_is_written_is_read_C6(self):
        for length in (1, 2, 3, 56, 57, 58, 1758, 2047, 2048):
            key = bytes(place % 256 for place in range(length))
            for mutual in (False, True):
                number, field = write_autocrypt(b"A@b", key, mutual, 9000)
                self.assertEqual(number, 0)
                (name, value), = header.fields(field)
                self.assertEqual(name, b"Autocrypt")
                self.assertEqual(keyfield.read(value), keyfield.Field(b"a@b", mutual, key))
            number, field = write_gossip(b"A@b", key, 9000)
            (name, value), = header.fields(field)
            self.assertEqual(name, b"Autocrypt-Gossip")
            self.assertEqual(keyfield.read(value), keyfield.Field(b"a@b", False, key))


class Refusals(unittest.TestCase):
    """R9, R11, R12, R31 and R34, and the order of W1."""

    def test_9_for_both_writers_R9(self):
        for address in [b"", b"a", b"a@", b"a@b@c", b"a" * 65 + b"@b", b"a@" + b"b" * 64,
                        b"a@\xc3", b"a@" + b"\xc3\xa9" * 58, b"a@-\xc3\xa9", b'"a"@b', b"a@[1.2.3.4]"]:
            self.assertEqual(write_autocrypt(address, b"foo", True, 1000), (9, b""), address)
            self.assertEqual(write_gossip(address, b"foo", 1000), (9, b""), address)

    def test_9_for_lists_of_one_address_R9(self):
        for address in [b" a@b", b"a@b ", b"<a@b>", b"A <a@b>", b"g:a@b;", b"(c)a@b", b"a@b,c@d",
                        b"a@b\r\n"]:
            self.assertEqual(write_autocrypt(address, b"foo", True, 1000), (9, b""), address)

    def test_9_at_both_ends_of_the_limits_R9(self):
        domain = b".".join([b"b" * 63] * 3)
        for address, number in [(b"a" * 64 + b"@b", 0), (b"a" * 65 + b"@b", 9),
                                (b"a@" + b"b" * 63, 0), (b"a@" + b"b" * 64, 9),
                                (b"a" * 62 + b"@" + domain, 0), (b"a" * 63 + b"@" + domain, 9)]:
            self.assertEqual(write_autocrypt(address, b"foo", False, 1000)[0], number)

    def test_11_at_both_ends_R11(self):
        for length, number in [(0, 11), (1, 0), (2048, 0), (2049, 11), (65536, 11)]:
            self.assertEqual(write_autocrypt(b"a@b", bytes(length), True, 9000)[0], number, length)
            self.assertEqual(write_gossip(b"a@b", bytes(length), 9000)[0], number, length)
        self.assertEqual(write_autocrypt(b"a@b", b"", True, 9000), (11, b""))

    def test_12_exactly_long_enough_and_one_short_W6_R12(self):
        for length in (1, 3, 57, 58, 2048):
            key = bytes(length)
            for write in (lambda room: write_autocrypt(b"a@b", key, True, room),
                          lambda room: write_autocrypt(b"a@b", key, False, room),
                          lambda room: write_gossip(b"a@b", key, room)):
                number, field = write(9000)
                self.assertEqual(number, 0)
                self.assertEqual(write(len(field)), (0, field))
                self.assertEqual(write(len(field) + 1), (0, field))
                self.assertEqual(write(len(field) - 1), (12, b""))
                self.assertEqual(write(0), (12, b""))
        self.assertEqual(write_autocrypt(b"bob@b.example", b"foo", True, 71), (0, EXAMPLE))
        self.assertEqual(write_autocrypt(b"bob@b.example", b"foo", True, 70), (12, b""))
        # L8: the form is what is written, be it longer than the address or shorter.
        for label, length in (("é", 7), ("他" * 57, 63)):
            number, field = write_gossip(b"a@" + label.encode(), b"k", 9000)
            rest = len(b"Autocrypt-Gossip: addr=a@; keydata=\r\n aw==\r\n")
            self.assertEqual((number, len(field)), (0, rest + length))
            self.assertEqual(write_gossip(b"a@" + label.encode(), b"k", len(field)), (0, field))
            self.assertEqual(write_gossip(b"a@" + label.encode(), b"k", len(field) - 1), (12, b""))

    def test_the_longest_field_W6(self):
        address = b"a" * 62 + b"@" + b".".join([b"b" * 63] * 3)
        self.assertEqual(len(address), 254)
        lengths = [len(write_autocrypt(address, bytes(2048), mutual, 3200)[1]) for mutual in (False, True)]
        lengths.append(len(write_gossip(address, bytes(2048), 3200)[1]))
        self.assertEqual(max(lengths), 3145)
        self.assertEqual(write_autocrypt(address, bytes(2048), True, 3145)[0], 0)
        self.assertEqual(write_autocrypt(address, bytes(2048), True, 3144)[0], 12)

    def test_the_order_of_testing_W1_R31(self):
        self.assertEqual(write_autocrypt(b"a", b"", True, 0), (9, b""))
        self.assertEqual(write_autocrypt(b"a", b"foo", True, 0), (9, b""))
        self.assertEqual(write_autocrypt(b"a@b", b"", True, 0), (11, b""))
        self.assertEqual(write_autocrypt(b"a@b", b"foo", True, 0), (12, b""))
        self.assertEqual(write_gossip(b"a", b"", 0), (9, b""))
        self.assertEqual(write_gossip(b"a@b", bytes(2049), 0), (11, b""))

    def test_a_refusal_has_no_length_R34(self):
        for call in ((b"", b"foo", True, 1000), (b"a@b", b"", True, 1000), (b"a@b", b"foo", True, 1)):
            number, field = write_autocrypt(*call)
            self.assertNotEqual(number, 0)
            self.assertEqual(len(field), 0)


if __name__ == "__main__":
    unittest.main()
