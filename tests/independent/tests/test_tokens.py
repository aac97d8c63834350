"""L1 to L5: blanks, comments, quoted strings and runs."""

import unittest

from scope import tokens

CONTROLS = [octet for octet in list(range(32)) + [127] if octet != 9]


def nested(depth: int) -> bytes:
    return b"(" * depth + b")" * depth


class Skipping(unittest.TestCase):
    """L1, L2, L4 and L5: blanks and comments."""

    def test_nothing_to_skip_L11(self):
        self.assertEqual(tokens.skip(b"", 0), 0)
        self.assertEqual(tokens.skip(b"abc", 0), 0)
        self.assertEqual(tokens.skip(b"abc", 3), 3)
        self.assertEqual(tokens.skip(b" a", 1), 1)

    def test_blanks_L1(self):
        self.assertEqual(tokens.skip(b" \t \ta", 0), 4)
        self.assertEqual(tokens.skip(b" \t \ta", 2), 4)
        self.assertEqual(tokens.skip(b"a  ", 1), 3)

    def test_comments_L2(self):
        self.assertEqual(tokens.skip(b"()", 0), 2)
        self.assertEqual(tokens.skip(b"(c)x", 0), 3)
        self.assertEqual(tokens.skip(b" (c)\t(d (e) f) x", 0), 15)
        self.assertEqual(tokens.skip(b"x(c)", 1), 4)
        self.assertEqual(tokens.skip(b"(a)(b)(c)", 3), 9)

    def test_other_octets_end_it_L1(self):
        for octet in range(256):
            if octet in b" \t(":
                continue
            self.assertEqual(tokens.skip(b" " + bytes([octet]), 0), 1, octet)

    def test_a_line_ending_is_no_blank_L1(self):
        self.assertEqual(tokens.skip(b" \r\n x", 0), 1)
        self.assertEqual(tokens.skip(b" \n x", 0), 1)

    def test_depth_16_is_readable_and_17_is_not_L2(self):
        self.assertEqual(tokens.COMMENT_DEPTH, 16)
        self.assertEqual(tokens.skip(nested(15) + b"x", 0), 30)
        self.assertEqual(tokens.skip(nested(16) + b"x", 0), 32)
        self.assertIsNone(tokens.skip(nested(17) + b"x", 0))
        self.assertIsNone(tokens.skip(b"a" + nested(17), 1))

    def test_depth_counts_afresh_L2(self):
        self.assertEqual(tokens.skip(nested(16) + nested(16), 0), 64)
        # Side by side at depth 16, not deeper.
        self.assertEqual(tokens.skip(b"(" * 15 + b"()()()" + b")" * 15, 0), 36)
        self.assertIsNone(tokens.skip(b"(" * 15 + b"()(())()" + b")" * 15, 0))

    def test_a_backslash_makes_an_octet_plain_L4(self):
        self.assertEqual(tokens.skip(b"(\\()x", 0), 4)
        self.assertEqual(tokens.skip(b"(\\))x", 0), 4)
        self.assertEqual(tokens.skip(b"(\\\\)x", 0), 4)
        self.assertEqual(tokens.skip(b"(\\\t)x", 0), 4)
        self.assertEqual(tokens.skip(b"(\\\xff)x", 0), 4)
        self.assertEqual(tokens.skip(b"(" * 16 + b"\\(" + b")" * 16, 0), 34)
        self.assertIsNone(tokens.skip(b"(\\)", 0))
        self.assertIsNone(tokens.skip(b"(\\", 0))
        self.assertIsNone(tokens.skip(b"(a)(\\", 0))

    def test_a_quote_in_a_comment_means_nothing_L4(self):
        self.assertEqual(tokens.skip(b'(")x', 0), 3)
        self.assertEqual(tokens.skip(b'("(")")x', 0), 7)

    def test_a_comment_without_end_L2(self):
        for text in [b"(", b"(a", b"(()", b" (", b"()(", b"(()()"]:
            self.assertIsNone(tokens.skip(text, 0), text)

    def test_a_closing_parenthesis_alone_is_not_skipped_L2(self):
        self.assertEqual(tokens.skip(b")", 0), 0)
        self.assertEqual(tokens.skip(b"())", 0), 2)

    def test_control_octets_in_comments_L5(self):
        for octet in CONTROLS:
            self.assertIsNone(tokens.skip(b"(" + bytes([octet]) + b")", 0), octet)
            self.assertIsNone(tokens.skip(b"(a\\" + bytes([octet]) + b")", 0), octet)
            self.assertIsNone(tokens.skip(b"((" + bytes([octet]) + b"))", 0), octet)

    def test_every_other_octet_in_comments_L4(self):
        for octet in range(256):
            if octet in CONTROLS or octet in b"()\\":
                continue
            self.assertEqual(tokens.skip(b"(" + bytes([octet]) + b")x", 0), 3, octet)
            self.assertEqual(tokens.skip(b"(\\" + bytes([octet]) + b")x", 0), 4, octet)

    def test_a_control_octet_behind_the_comment_is_not_its_matter_L5(self):
        self.assertEqual(tokens.skip(b"(a)\x01", 0), 3)

    def test_long_comments_need_no_depth_L2(self):
        self.assertEqual(tokens.skip(b"(" + b"()" * 30000 + b")", 0), 60002)
        self.assertEqual(tokens.skip(b"()" * 30000, 0), 60000)


class Quoted(unittest.TestCase):
    """L3 to L5: quoted strings."""

    def test_quoted_strings_L3(self):
        self.assertEqual(tokens.quoted(b'""', 0), 2)
        self.assertEqual(tokens.quoted(b'"a b"c', 0), 5)
        self.assertEqual(tokens.quoted(b'x"a"', 1), 4)
        self.assertEqual(tokens.quoted(b'"a""b"', 0), 3)
        self.assertEqual(tokens.quoted(b'"a""b"', 3), 6)

    def test_a_backslash_makes_an_octet_plain_L4(self):
        self.assertEqual(tokens.quoted(b'"\\""', 0), 4)
        self.assertEqual(tokens.quoted(b'"\\\\"', 0), 4)
        self.assertEqual(tokens.quoted(b'"\\\t"', 0), 4)
        self.assertEqual(tokens.quoted(b'"\\\x80"', 0), 4)
        self.assertIsNone(tokens.quoted(b'"\\"', 0))
        self.assertIsNone(tokens.quoted(b'"\\', 0))

    def test_without_end_L3(self):
        self.assertIsNone(tokens.quoted(b'"', 0))
        self.assertIsNone(tokens.quoted(b'"abc', 0))
        self.assertIsNone(tokens.quoted(b'""a"', 3))

    def test_a_parenthesis_in_a_quoted_string_means_nothing_L4(self):
        self.assertEqual(tokens.quoted(b'"(" ', 0), 3)
        self.assertEqual(tokens.quoted(b'")"', 0), 3)

    def test_control_octets_L5(self):
        for octet in CONTROLS:
            self.assertIsNone(tokens.quoted(b'"' + bytes([octet]) + b'"', 0), octet)
            self.assertIsNone(tokens.quoted(b'"\\' + bytes([octet]) + b'"', 0), octet)

    def test_every_other_octet_L4(self):
        for octet in range(256):
            if octet in CONTROLS or octet in b'"\\':
                continue
            self.assertEqual(tokens.quoted(b'"' + bytes([octet]) + b'"', 0), 3, octet)
            self.assertEqual(tokens.quoted(b'"\\' + bytes([octet]) + b'"', 0), 4, octet)


class Runs(unittest.TestCase):
    def test_which_octets_make_a_run_L1(self):
        digits = b"0123456789"
        letters = b"abcdefghijklmnopqrstuvwxyzABCDEFGHIJKLMNOPQRSTUVWXYZ"
        signs = b"!#$%&'*+-/=?^_`{|}~"
        for octet in range(256):
            one = bytes([octet])
            self.assertEqual(tokens.digits_end(one, 0), int(octet in digits), octet)
            self.assertEqual(tokens.letters_end(one, 0), int(octet in letters), octet)
            atom = octet in digits + letters + signs or octet >= 128
            self.assertEqual(tokens.atom_end(one, 0), int(atom), octet)

    def test_where_a_run_ends_L1_D4(self):
        self.assertEqual(tokens.digits_end(b"a123b", 1), 4)
        self.assertEqual(tokens.digits_end(b"a123b", 0), 0)
        self.assertEqual(tokens.digits_end(b"a123b", 4), 4)
        self.assertEqual(tokens.digits_end(b"12", 2), 2)
        self.assertEqual(tokens.letters_end(b"1abC2", 1), 4)
        self.assertEqual(tokens.letters_end(b"", 0), 0)
        self.assertEqual(tokens.atom_end(b"a-\xc3\xa9.b", 0), 4)
        self.assertEqual(tokens.atom_end(b"a-\xc3\xa9.b", 4), 4)
        self.assertEqual(tokens.atom_end(b"a-\xc3\xa9.b", 5), 6)


if __name__ == "__main__":
    unittest.main()
