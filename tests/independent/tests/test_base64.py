"""Base64: the vectors of RFC 4648, section 10 (C15), key data as it is read (F9, F10) and the lines of a field (W4)."""

import base64 as standard
import random
import unittest

from scope import base64
from rfc4648 import VECTORS


class Decoding(unittest.TestCase):
    """F9 and F10."""

    def test_vectors_of_rfc_4648_F9_C15(self):
        for octets, text in VECTORS:
            self.assertEqual(base64.decode(text), octets)

    def test_examples_F9_C14(self):
        self.assertEqual(base64.decode(b"Zg=="), b"f")
        self.assertEqual(base64.decode(b"Z g = ="), b"f")
        for text in (b"Zh==", b"Zg", b"Zg=", b"Zg==Zm9v"):
            self.assertIsNone(base64.decode(text), text)

    def test_every_unused_bit_must_be_zero_F9(self):
        alphabet = base64.ALPHABET
        for place, digit in enumerate(alphabet):
            two = b"A" + bytes([digit]) + b"=="
            expected = bytes([place >> 4]) if place % 16 == 0 else None
            self.assertEqual(base64.decode(two), expected, two)
            three = b"AA" + bytes([digit]) + b"="
            expected = bytes([0, place >> 2]) if place % 4 == 0 else None
            self.assertEqual(base64.decode(three), expected, three)

    def test_every_octet_in_each_place_of_a_group_F9(self):
        for octet in range(256):
            good = octet in base64.ALPHABET
            for place in range(4):
                text = bytearray(b"AAAA")
                text[place] = octet
                decoded = base64.decode(bytes(text))
                if good:
                    self.assertEqual(decoded, standard.b64decode(bytes(text)))
                elif octet == ord("=") and place == 3:
                    self.assertEqual(decoded, b"\0\0")
                else:
                    # A space or a tab leaves three characters, which are not padded.
                    self.assertIsNone(decoded, bytes(text))

    def test_padding_only_at_the_end_and_at_most_two_F9(self):
        for text in [b"=", b"==", b"===", b"====", b"Z===", b"Zg=", b"Zg===", b"Zg==Zg==",
                     b"Zm8=Zm9v", b"Zm9v=", b"Zm9v==", b"Zm9v====", b"Z=g=", b"=Zg=", b"Zg=a",
                     b"Zm9", b"Z", b"Zm9vZ", b"Zm9vZm", b"Zm9vZm9"]:
            self.assertIsNone(base64.decode(text), text)

    def test_the_other_alphabet_is_not_read_F9(self):
        self.assertEqual(base64.decode(b"+/+/"), b"\xfb\xff\xbf")
        self.assertIsNone(base64.decode(b"-_-_"))

    def test_spaces_and_tabs_go_everywhere_F9(self):
        self.assertEqual(base64.decode(b" Z\tg = \t= "), b"f")
        self.assertEqual(base64.decode(b"\t Zm9v Ym Fy"), b"foobar")
        self.assertEqual(base64.decode(b" \t "), b"")

    def test_no_other_octet_goes_F10(self):
        for octet in range(256):
            if octet not in b" \t" and octet not in base64.ALPHABET:
                self.assertIsNone(base64.decode(b"Zm9v" + bytes([octet]) + b"YmFy"), octet)
                self.assertIsNone(base64.decode(b"Zm9vYmF" + bytes([octet]) + b"YmFy"), octet)

    def test_no_limit_on_the_length_F9(self):
        octets = bytes(range(256)) * 200
        self.assertEqual(base64.decode(standard.b64encode(octets)), octets)


class Encoding(unittest.TestCase):
    """F9, for what W4 writes."""

    def test_vectors_of_rfc_4648_F9_C15(self):
        for octets, text in VECTORS:
            self.assertEqual(base64.encode(octets), text)

    def test_there_and_back_for_every_length_F9(self):
        source = random.Random(1)
        for length in range(0, 200):
            octets = source.randbytes(length)
            self.assertEqual(base64.encode(octets), standard.b64encode(octets))
            self.assertEqual(base64.decode(base64.encode(octets)), octets)

    def test_every_octet_at_every_place_F9(self):
        for octet in range(256):
            for before in range(3):
                octets = bytes(before) + bytes([octet])
                self.assertEqual(base64.encode(octets), standard.b64encode(octets))


class Lines(unittest.TestCase):
    """W4."""

    def test_no_octets_no_line_W4(self):
        self.assertEqual(base64.lines(b""), b"")

    def test_an_example_W2_W4(self):
        self.assertEqual(base64.lines(b"foo"), b" Zm9v\r\n")

    def test_a_full_line_is_followed_by_no_empty_one_W4(self):
        self.assertEqual(base64.lines(bytes(57)), b" " + b"A" * 76 + b"\r\n")

    def test_both_sides_of_a_full_line_W4(self):
        self.assertEqual(base64.lines(bytes(55)), b" " + b"A" * 74 + b"==\r\n")
        self.assertEqual(base64.lines(bytes(56)), b" " + b"A" * 75 + b"=\r\n")
        self.assertEqual(base64.lines(bytes(58)), b" " + b"A" * 76 + b"\r\n AA==\r\n")
        self.assertEqual(base64.lines(bytes(114)), (b" " + b"A" * 76 + b"\r\n") * 2)

    def test_the_layout_for_every_length_W4(self):
        source = random.Random(2)
        for length in range(1, 240):
            octets = source.randbytes(length)
            pieces = base64.lines(octets).split(b"\r\n")
            self.assertEqual(pieces.pop(), b"")
            for piece in pieces:
                self.assertEqual(piece[0:1], b" ")
            self.assertTrue(all(len(piece) == 77 for piece in pieces[:-1]))
            self.assertTrue(2 <= len(pieces[-1]) <= 77)
            self.assertEqual(b"".join(piece[1:] for piece in pieces), standard.b64encode(octets))

    def test_the_largest_key_W4(self):
        # 2,048 octets: 2,732 characters, 35 full lines of 76 and one of 72.
        text = base64.lines(bytes(2048))
        self.assertEqual(len(text), 2732 + 36 * 3)
        self.assertEqual(text.split(b"\r\n")[35], b" " + b"A" * 71 + b"=")


if __name__ == "__main__":
    unittest.main()
