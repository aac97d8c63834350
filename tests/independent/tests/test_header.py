"""Page B: header blocks and Content-Type."""

import re
import unittest
from collections import Counter

from cases import Cases
from scope.header import BLOCK_LIMIT, fields, is_report, same_name, values_of


class Lines(unittest.TestCase):
    """B2 to B5, B10 and B15."""

    def test_length_0_is_readable_B5(self):
        self.assertEqual(fields(b""), [])

    def test_both_line_endings_B2_B15(self):
        expected = [(b"A", b"b"), (b"C", b" d ")]
        self.assertEqual(fields(b"A:b\r\nC: d \r\n"), expected)
        self.assertEqual(fields(b"A:b\nC: d \n"), expected)
        self.assertEqual(fields(b"A:b\r\nC: d \n"), expected)

    def test_crlf_for_every_lf_B15(self):
        cases = Cases(15)
        readable = Counter()
        for _ in range(500):
            block = cases.header_block().replace(b"\r\n", b"\n")[:BLOCK_LIMIT // 2]
            # A CR in front of the LF would be an octet of the line in one block alone.
            block = re.sub(b"\r+\n", b"\n", block)
            self.assertEqual(fields(block.replace(b"\n", b"\r\n")), fields(block), block)
            readable[fields(block) is not None] += 1
        self.assertGreater(min(readable[False], readable[True]), 20)

    def test_the_last_line_may_lack_its_ending_B2_B5(self):
        self.assertEqual(fields(b"A:b"), [(b"A", b"b")])
        self.assertEqual(fields(b"A:b\r\nC:d"), [(b"A", b"b"), (b"C", b"d")])
        self.assertEqual(fields(b"A:"), [(b"A", b"")])

    def test_an_empty_line_ends_the_block_B5(self):
        for empty in (b"\r\n", b"\n"):
            self.assertEqual(fields(b"A:b\n" + empty + b"no field"), [(b"A", b"b")])
            self.assertEqual(fields(b"A:b\n" + empty + b"\x00:\xff\n bad"), [(b"A", b"b")])
            # A first line that is empty gives no fields.
            self.assertEqual(fields(empty + b"From: a@b\n"), [])

    def test_lines_behind_the_empty_one_are_not_looked_at_B5(self):
        self.assertEqual(fields(b"A:b\n\n" + b"x" * 1000), [(b"A", b"b")])
        self.assertIsNone(fields(b"A:b\nx\n\n"))

    def test_a_bare_cr_is_an_ordinary_octet_B3(self):
        self.assertEqual(fields(b"A:b\rc\n"), [(b"A", b"b\rc")])
        self.assertEqual(fields(b"A:b\r\r\n"), [(b"A", b"b\r")])
        self.assertEqual(fields(b"A:b\rB:c\n"), [(b"A", b"b\rB:c")])
        self.assertIsNone(fields(b"A\r:b\n"))
        self.assertIsNone(fields(b"A:b\n\rB:c\n"))
        self.assertIsNone(fields(b"A:b\n\r\r\nB:c\n"))

    def test_a_lone_cr_at_the_end_B4(self):
        self.assertIsNone(fields(b"A:b\r\n\r"))
        self.assertEqual(fields(b"A:b\r"), [(b"A", b"b\r")])
        self.assertIsNone(fields(b"\r"))

    def test_values_may_hold_any_octet_but_lf_B10(self):
        for octet in range(256):
            if octet == 10:
                continue
            self.assertEqual(fields(b"A:x" + bytes([octet]) + b"y\n"),
                             [(b"A", b"x" + bytes([octet]) + b"y")])

    def test_no_limit_on_a_line_B10(self):
        self.assertEqual(fields(b"A:" + b"x" * 60000 + b"\n"), [(b"A", b"x" * 60000)])


class Folding(unittest.TestCase):
    """B6 and B9."""

    def test_unfolding_keeps_all_but_the_endings_B9(self):
        self.assertEqual(fields(b"A: b\r\n c\r\n\td\n  e"), [(b"A", b" b c\td  e")])
        self.assertEqual(fields(b"A:\n b\nC:d\n e\n"), [(b"A", b" b"), (b"C", b"d e")])

    def test_a_continuation_without_a_field_B6(self):
        self.assertIsNone(fields(b" A:b\n"))
        self.assertIsNone(fields(b"\tA:b\n"))
        self.assertIsNone(fields(b" \nA:b\n"))

    def test_a_line_of_blanks_is_a_continuation_B6(self):
        self.assertEqual(fields(b"A:b\n \t\nC:d\n"), [(b"A", b"b \t"), (b"C", b"d")])
        self.assertEqual(fields(b"A:b\r\n \r\n\r\nno field"), [(b"A", b"b ")])
        self.assertIsNone(fields(b" \r\n"))

    def test_many_continuations_B6_B9(self):
        self.assertEqual(fields(b"A:" + b"\n x" * 20000), [(b"A", b" x" * 20000)])


class Names(unittest.TestCase):
    """B7, B8 and B11."""

    def test_every_octet_as_a_name_B7(self):
        for octet in range(256):
            block = bytes([octet]) + b":v\n"
            if octet == 58:
                # A colon first: the name is empty.
                self.assertIsNone(fields(block))
            elif 33 <= octet <= 126:
                self.assertEqual(fields(block), [(bytes([octet]), b"v")])
            elif octet == 10:
                self.assertEqual(fields(block), [])
            else:
                self.assertIsNone(fields(block), octet)

    def test_every_octet_inside_a_name_B7(self):
        for octet in range(256):
            block = b"N" + bytes([octet]) + b"N:v\n"
            if octet == 58:
                self.assertEqual(fields(block), [(b"N", b"N:v")])
            elif 33 <= octet <= 126:
                self.assertEqual(fields(block), [(block[:3], b"v")])
            else:
                self.assertIsNone(fields(block), octet)

    def test_lines_that_are_no_field_B8(self):
        for line in [b"A", b"A b", b":", b":v", b"A :v", b"A\t:v", b"\xef\xbb\xbfA:v",
                     b"From a@b Mon Jan  1 00:00:00 1970"]:
            self.assertIsNone(fields(line + b"\nB:c\n"), line)
            self.assertIsNone(fields(b"B:c\n" + line), line)

    def test_a_blank_before_the_colon_B8(self):
        self.assertIsNone(fields(b"From : a@b\n"))

    def test_an_mbox_line_and_a_byte_order_mark_B8(self):
        self.assertIsNone(fields(b"From a@b Mon Jan  1 00:00:00 1970\nFrom: a@b\n"))
        self.assertIsNone(fields(b"\xef\xbb\xbfFrom: a@b\n"))

    def test_names_stay_as_they_stand_B11(self):
        self.assertEqual(fields(b"FROM:x\nfrom:y\n"), [(b"FROM", b"x"), (b"from", b"y")])

    def test_names_differ_by_more_than_ascii_case_B11(self):
        self.assertTrue(same_name(b"From", b"fROM"))
        self.assertTrue(same_name(b"Reply-To", b"REPLY-TO"))
        self.assertFalse(same_name(b"From", b"Fro"))
        self.assertFalse(same_name(b"From", b"Sender"))
        # `@` and a backquote, `[` and `{` differ by 32 too, but are no letters.
        self.assertFalse(same_name(b"@", b"`"))
        self.assertFalse(same_name(b"[", b"{"))
        self.assertFalse(same_name(b"\xc3\x89", b"\xc3\xa9"))

    def test_values_of_one_name_in_order_B11(self):
        found = fields(b"To:1\nCc:2\ntO:3\nTo-:4\nTO:5\n 6\n")
        self.assertEqual(values_of(found, b"To"), [b"1", b"3", b"5 6"])
        self.assertEqual(values_of(found, b"Bcc"), [])


class Length(unittest.TestCase):
    def test_both_ends_of_the_limit_B1(self):
        self.assertEqual(BLOCK_LIMIT, 65536)
        self.assertEqual(fields(b"A:" + b"x" * 65534), [(b"A", b"x" * 65534)])
        self.assertIsNone(fields(b"A:" + b"x" * 65535))
        self.assertEqual(fields(b"A:" + b"x" * 65532 + b"\r\n"), [(b"A", b"x" * 65532)])
        self.assertIsNone(fields(b"A:" + b"x" * 65533 + b"\r\n"))

    def test_the_length_of_the_argument_counts_B1(self):
        self.assertEqual(fields(b"A:b\r\n\r\n" + b"x" * (65536 - 7)), [(b"A", b"b")])
        self.assertIsNone(fields(b"A:b\r\n\r\n" + b"x" * (65536 - 6)))
        self.assertIsNone(fields(b"From: a@b\r\n\r\n" + b"x" * 70000))


class Report(unittest.TestCase):
    """B13."""

    def test_matches_B13(self):
        for value in [b"multipart/report", b" multipart/report", b"\t \tmultipart/report",
                      b" Multipart/REPORT", b" multipart/report ", b" multipart/report\t",
                      b" multipart/report;", b" multipart/report; report-type=x",
                      b"Multipart/REPORT; report-type=x", b" multipart/report(c)"]:
            self.assertTrue(is_report(value), value)

    def test_what_may_follow_B13(self):
        for octet in range(256):
            self.assertEqual(is_report(b"multipart/report" + bytes([octet])), octet in b" \t;(",
                             octet)

    def test_comments_and_blanks_are_not_skipped_B13(self):
        for value in [b"(c) multipart/report", b" (c)multipart/report", b" multipart /report",
                      b" multipart/ report", b"multipart / report", b" multipart(c)/report", b" \rmultipart/report"]:
            self.assertFalse(is_report(value), value)

    def test_other_types_B13(self):
        for value in [b"", b" ", b" multipart/repor", b" multipart/reports", b"multipart/reporting",
                      b" multipart/mixed", b" xmultipart/report", b" text/plain; x=multipart/report",
                      b" multipart/report\r", b" multipart/report,", b' "multipart/report"']:
            self.assertFalse(is_report(value), value)

    def test_a_folded_value_B9_B13(self):
        self.assertTrue(is_report(fields(b"Content-Type:\r\n multipart/report;\r\n x=y\r\n")[0][1]))


if __name__ == "__main__":
    unittest.main()
