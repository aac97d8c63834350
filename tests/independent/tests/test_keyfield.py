"""Page F: the value of Autocrypt and Autocrypt-Gossip fields."""

import base64 as standard
import unittest

from scope.keyfield import Field, counted, read

GOOD = b"addr=a@b.example; keydata=Zm9v"


class Examples(unittest.TestCase):
    def test_proved_examples_C14_F3_F5_F8_F12_F13(self):
        foo = Field(b"a@b.example", False, b"foo")
        self.assertEqual(counted([GOOD], b"A@B.example"), foo)
        self.assertIsNone(counted([b"addr=a@b.example; type=1; keydata=Zm9v"], b"A@B.example"))
        self.assertEqual(counted([b"addr=a@b.example; _type=1; keydata=Zm9v"], b"A@B.example"), foo)
        self.assertIsNone(counted([GOOD + b";"], b"A@B.example"))

    def test_proved_examples_on_key_data_C14_F9(self):
        self.assertEqual(read(b"addr=a@b; keydata=Zg==").key, b"f")
        self.assertIsNone(read(b"addr=a@b; keydata=Zh=="))
        self.assertIsNone(read(b"addr=a@b; keydata=Zg"))

    def test_key_of_2048_octets_read_and_2049_not_F10(self):
        for length, read_too in [(1, True), (2, True), (2047, True), (2048, True), (2049, False),
                                 (2050, False), (8192, False)]:
            text = standard.b64encode(bytes(length))
            found = read(b"addr=a@b; keydata=" + text)
            self.assertEqual(found, Field(b"a@b", False, bytes(length)) if read_too else None)

    def test_a_whole_field_F11(self):
        self.assertEqual(
            read(b" addr=Bob@b.example.org; prefer-encrypt=mutual; keydata=\t Zm9v Ym Fy"),
            Field(b"bob@b.example.org", True, b"foobar"))


class Pieces(unittest.TestCase):
    """F1 to F3."""

    def test_trimming_of_spaces_and_tabs_F2(self):
        self.assertEqual(read(b" \taddr\t = \ta@b ; prefer-encrypt \t=\tmutual\t; keydata = Zm9v "),
                         Field(b"a@b", True, b"foo"))
        self.assertEqual(read(b"addr=a@b;keydata=Zm9v"), Field(b"a@b", False, b"foo"))

    def test_nothing_else_is_trimmed_F2(self):
        for octet in (b"\r", b"\n", b"\x0b", b"\x0c", b"\0", b"\xa0"):
            self.assertIsNone(read(octet + GOOD))
            self.assertIsNone(read(b"addr" + octet + b"=a@b; keydata=Zm9v"))
            field = read(b"addr=" + octet + b"a@b; keydata=Zm9v")
            # An octet of 128 and above belongs to the local part.
            expected = Field(octet + b"a@b", False, b"foo") if octet == b"\xa0" else None
            self.assertEqual(field, expected)
            self.assertIsNone(read(b"addr=a@b" + octet + b"; keydata=Zm9v"))
            self.assertIsNone(read(GOOD + octet))
            field = read(b"addr=a@b; prefer-encrypt=mutual" + octet + b"; keydata=Zm9v")
            self.assertEqual(field, Field(b"a@b", False, b"foo"))

    def test_a_piece_without_equals_or_name_F3(self):
        for text in [b"", b" ", b";", b"addr", b"addr=a@b; x; keydata=Zm9v",
                     b"addr=a@b; ; keydata=Zm9v", b"addr=a@b;; keydata=Zm9v", b";" + GOOD,
                     b"addr=a@b; =x; keydata=Zm9v", b"addr=a@b; = ; keydata=Zm9v",
                     b"addr=a@b; \t=_; keydata=Zm9v", b"addr=a@b; _x; keydata=Zm9v",
                     b"addr=a@b; mutual; keydata=Zm9v"]:
            self.assertIsNone(read(text), text)

    def test_an_empty_value_is_spoiled_F3(self):
        self.assertIsNone(read(b""))

    def test_no_comments_and_no_quoted_strings_F1(self):
        for text in [b"addr=a@b (c); keydata=Zm9v", b'addr="a@b"; keydata=Zm9v',
                     b"addr=<a@b>; keydata=Zm9v", b"addr=a@b; _x=(;); keydata=Zm9v",
                     b'addr=a@b; _x=";"; keydata=Zm9v', b"(c) addr=a@b; keydata=Zm9v",
                     b"addr=a@b; keydata=Zm9v (c)", b'addr=a@b; keydata="Zm9v"']:
            self.assertIsNone(read(text), text)
        self.assertEqual(read(b"addr=a@b; _x=(; _y=); keydata=Zm9v"), Field(b"a@b", False, b"foo"))
        self.assertEqual(read(b"addr=a@b; prefer-encrypt=\"mutual\"; keydata=Zm9v"),
                         Field(b"a@b", False, b"foo"))

    def test_parted_at_the_first_equals_F2(self):
        self.assertEqual(read(b"addr=a=b@c; keydata=Zm9v"), Field(b"a=b@c", False, b"foo"))
        self.assertEqual(read(b"addr==@c; keydata=Zm9v"), Field(b"=@c", False, b"foo"))
        self.assertEqual(read(b"addr=a@c; _x==y=z=; keydata=Zg=="), Field(b"a@c", False, b"f"))


class Names(unittest.TestCase):
    """F4 to F8."""

    def test_names_are_case_sensitive_F4(self):
        for text in [b"Addr=a@b; keydata=Zm9v", b"addr=a@b; KEYDATA=Zm9v", b"addr=a@b; Keydata=Zm9v",
                     b"addr=a@b; Prefer-Encrypt=mutual; keydata=Zm9v"]:
            self.assertIsNone(read(text), text)

    def test_unknown_names_spoil_F2_F5(self):
        for name in [b"type", b"x", b"addr2", b"-", b"keydata2", b"prefer_encrypt", b"key data", b"add"]:
            self.assertIsNone(read(b"addr=a@b; " + name + b"=1; keydata=Zm9v"), name)
            self.assertIsNone(read(b"addr=a@b; " + name + b"=; keydata=Zm9v"), name)

    def test_names_that_open_with_an_underscore_F5(self):
        for names in [[b"_"], [b"_x"], [b"_addr"], [b"_keydata"], [b"_x", b"_x"], [b"_", b"_y", b"_"],
                      [b"_x y"], [b"__"], [b"_\xff\x01"]]:
            middle = b"".join(name + b"=1; " for name in names)
            self.assertEqual(read(b"addr=a@b; " + middle + b"keydata=Zm9v"),
                             Field(b"a@b", False, b"foo"), names)
        self.assertEqual(read(b"_=; addr=a@b; keydata=Zm9v"), Field(b"a@b", False, b"foo"))
        self.assertIsNone(read(b"addr=a@b; _; keydata=Zm9v"))

    def test_addr_once_F6(self):
        self.assertIsNone(read(b"keydata=Zm9v"))
        self.assertIsNone(read(b"addr=a@b; addr=a@b; keydata=Zm9v"))
        self.assertIsNone(read(b"addr=a@b; addr=; keydata=Zm9v"))
        self.assertIsNone(read(b"_addr=a@b; keydata=Zm9v"))

    def test_keydata_once_and_last_F8(self):
        for text in [b"addr=a@b", b"addr=a@b; keydata=Zm9v; keydata=Zm9v", b"keydata=Zm9v; addr=a@b",
                     b"addr=a@b; keydata=Zm9v; prefer-encrypt=mutual", b"addr=a@b; keydata=Zm9v; _x=1",
                     b"addr=a@b; keydata=Zm9v;", b"addr=a@b; keydata=Zm9v; ", b"addr=a@b; _keydata=Zm9v"]:
            self.assertIsNone(read(text), text)

    def test_order_of_the_others_F8(self):
        self.assertEqual(read(b"prefer-encrypt=mutual; _x=1; addr=a@b; keydata=Zm9v"),
                         Field(b"a@b", True, b"foo"))


class Values(unittest.TestCase):
    """F6, F7, F9 and F10."""

    def test_addr_is_a_plain_address_F6(self):
        for text in [b"", b"a", b"a@", b"@b", b"a@b, c@d", b"Bob <a@b>", b"a @b", b"a@b.", b'"a"@b',
                     b"a" * 65 + b"@b", b"a@" + b"b" * 64, b"a@\xc3", b"a@" + b"\xc3\xa9" * 58]:
            self.assertIsNone(read(b"addr=" + text + b"; keydata=Zm9v"), text)
        self.assertEqual(read(b"addr=" + b"a" * 64 + b"@b; keydata=Zm9v"),
                         Field(b"a" * 64 + b"@b", False, b"foo"))

    def test_addr_is_canonical_F11(self):
        self.assertEqual(read(b"addr=A.\xc3\x89@B.C; keydata=Zm9v").address, b"a.\xc3\xa9@b.c")
        self.assertEqual(read(b"addr=A.\xc3\x89.\xff@B.C; keydata=Zm9v").address, b"a.\xc3\x89.\xff@b.c")
        self.assertEqual(read("addr=A@BÜCHER.C; keydata=Zm9v".encode()).address, b"a@xn--bcher-kva.c")
        self.assertEqual(len(read(b"addr=a@" + b"\xc3\xa9" * 57 + b"; keydata=Zm9v").address), 65)

    def test_prefer_encrypt_F7(self):
        for value, mutual in [(b"mutual", True), (b"Mutual", False), (b"MUTUAL", False), (b"", False),
                              (b"nopreference", False), (b"mutual x", False), (b"mutual=", False),
                              (b"mutua", False), (b"mutuall", False), (b"\x00", False)]:
            self.assertEqual(read(b"addr=a@b; prefer-encrypt=" + value + b"; keydata=Zm9v"),
                             Field(b"a@b", mutual, b"foo"), value)
        for twice in [b"prefer-encrypt=mutual; prefer-encrypt=mutual; ",
                      b"prefer-encrypt=; prefer-encrypt=mutual; ",
                      b"prefer-encrypt=mutual; _x=1; prefer-encrypt=x; "]:
            self.assertIsNone(read(b"addr=a@b; " + twice + b"keydata=Zm9v"), twice)

    def test_key_data_F9_F10(self):
        for text, key in [(b" Z m\t9 v ", b"foo"), (b"Zg= =", b"f"), (b"Zg=\t=", b"f"), (b"Zm8 =", b"fo")]:
            self.assertEqual(read(b"addr=a@b; keydata=" + text), Field(b"a@b", False, key), text)
        for text in [b"", b" ", b"Zm9v\r", b"Zm\r9v", b"Zm9v=", b"Zg=", b"Z", b"Zm9", b"=", b"====",
                     b"Zg==Zg==", b"Zm9v-_", b"Zm.v", b"Zm\xc3\xa9v", b"Zm9v\0"]:
            self.assertIsNone(read(b"addr=a@b; keydata=" + text), text)


class Counting(unittest.TestCase):
    """F12 and F13."""

    MUTUAL = b"prefer-encrypt=mutual; addr=a@b.example; keydata=YmFy"

    def test_none_and_one_F13(self):
        self.assertIsNone(counted([], b"a@b.example"))
        self.assertEqual(counted([GOOD], b"a@b.example"), Field(b"a@b.example", False, b"foo"))

    def test_two_valid_ones_even_equal_do_not_count_F13(self):
        self.assertIsNone(counted([GOOD, GOOD], b"a@b.example"))
        self.assertIsNone(counted([GOOD, self.MUTUAL], b"a@b.example"))
        self.assertIsNone(counted([GOOD, GOOD, GOOD], b"a@b.example"))

    def test_spoiled_fields_and_other_addresses_do_not_count_F13(self):
        too_long = b"addr=a@b.example; keydata=" + standard.b64encode(bytes(2049))
        others = [b"", b"x", too_long, b"addr=c@d; keydata=Zm9v", GOOD + b";",
                  b"addr=a@b.example; type=1; keydata=Zm9v"]
        self.assertEqual(counted(others + [self.MUTUAL] + others, b"a@b.example"),
                         Field(b"a@b.example", True, b"bar"))
        self.assertIsNone(counted(others, b"a@b.example"))

    def test_the_sender_in_any_case_F12(self):
        self.assertEqual(counted([b"addr=A@b.EXAMPLE; keydata=Zm9v"], b"a@B.example"),
                         Field(b"a@b.example", False, b"foo"))
        self.assertIsNone(counted([GOOD], b"a@b.example.org"))
        # L8: beyond ASCII too, but not for code points that L21 leaves as they are.
        for addr, sender in [("É@b", "é@b"), ("é@b", "É@b"), ("ЁΣ@b", "ёσ@B"), ("×@b", "×@b")]:
            field = counted([f"addr={addr}; keydata=Zm9v".encode()], sender.encode())
            self.assertEqual(field, Field(sender.lower().encode(), False, b"foo"))
        # L22: in domains too, coded or not.
        for addr, sender in [("a@É", "a@xn--9ca"), ("A@XN--9CA", "a@é"), ("a@é", "a@É")]:
            field = counted([f"addr={addr}; keydata=Zm9v".encode()], sender.encode())
            self.assertEqual(field, Field(b"a@xn--9ca", False, b"foo"))
        for addr, sender in [("×@b", "÷@b"), ("Ÿ@b", "ÿ@b"), ("ẞ@b", "ß@b"), ("Σ@b", "ς@b"), ("Ά@b", "ά@b")]:
            self.assertIsNone(counted([f"addr={addr}; keydata=Zm9v".encode()], sender.encode()), addr)
        self.assertIsNone(counted([b"addr=\xc3\x89\xff@b; keydata=Zm9v"], b"\xc3\xa9\xff@b"))


if __name__ == "__main__":
    unittest.main()
