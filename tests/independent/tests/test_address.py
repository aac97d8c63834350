"""L2 to L22: plain addresses, their canonical form, and lists."""

import unittest

from cases import Cases
from scope.address import addresses, canonical, is_canonical, is_old_canonical, is_plain

CONTROLS = [octet for octet in list(range(32)) + [127] if octet != 9]
ATOM_SIGNS = b"!#$%&'*+-/=?^_`{|}~"
LETTERS = b"abcdefghijklmnopqrstuvwxyzABCDEFGHIJKLMNOPQRSTUVWXYZ"
DIGITS = b"0123456789"


def nested(depth: int) -> bytes:
    return b"(" * depth + b")" * depth


class Plain(unittest.TestCase):
    """L6 and L7."""

    def test_plain_addresses_L6_L7(self):
        for text in [b"a@b", b"a@b.example", b"A.B@C.D", b"1@2", b"a+b@c", b"a=b@c", b"a@b--c",
                     b"a@\xc3\xa9", b"a@x.\xc3\xa9-y",
                     b"a@1-2.x", b"\xc3\xa9@b", b"\xff@b", b"!#$%&'*+-/=?^_`{|}~@b", b"a.b.c@d",
                     b"-@b", b"-a-@b"]:
            self.assertTrue(is_plain(text), text)

    def test_others_L6_L7(self):
        for text in [b"", b"a", b"@", b"a@", b"@b", b"a@b@c", b"a@@b", b".a@b", b"a.@b", b"a..b@c",
                     b"a@.b", b"a@b.", b"a@b..c", b"a@-b", b"a@b-", b"a@b-.c", b"a@b.-c", b"a@-",
                     b"a@b_c", b"a@\xc3\xa9_", b"a@-\xc3\xa9", b"a@\xc3\xa9-", b"a@\xc3\xa9..b", b"a@\xc3",
                     b"a@xn--", b"a@[1.2.3.4]", b'"a"@b', b"a b@c", b" a@b", b"a@b ",
                     b"<a@b>", b"a(c)@b", b"a@b(c)", b"a@b\r", b"a\x00@b", b"a@b\n", b"a,b@c",
                     b"a:b@c", b"a;b@c", b"a\\b@c", b"a[b@c", b"a)b@c"]:
            self.assertFalse(is_plain(text), text)

    def test_every_octet_in_the_local_part_L6(self):
        for octet in range(256):
            one = bytes([octet])
            good = octet in LETTERS + DIGITS + ATOM_SIGNS or octet >= 128
            self.assertEqual(is_plain(one + b"@b"), good, octet)
            self.assertEqual(is_plain(b"x" + one + b"y@b"), good or octet == 46, octet)

    def test_every_octet_in_a_label_L7(self):
        for octet in range(256):
            one = bytes([octet])
            good = octet in LETTERS + DIGITS
            self.assertEqual(is_plain(b"a@" + one), good, octet)
            self.assertEqual(is_plain(b"a@x" + one + b"y"), good or octet in b"-.", octet)
            # L20: behind an octet that asks for one more, those that may follow.
            self.assertEqual(is_plain(b"a@\xc3" + one), 128 <= octet < 192, octet)

    def test_local_part_of_64_and_65_octets_L6(self):
        self.assertTrue(is_plain(b"a" * 64 + b"@b"))
        self.assertFalse(is_plain(b"a" * 65 + b"@b"))
        self.assertTrue(is_plain(b"a." * 31 + b"aa@b"))
        self.assertFalse(is_plain(b"a." * 32 + b"a@b"))
        self.assertTrue(is_plain(b"\xc3\xa9" * 32 + b"@b"))
        self.assertFalse(is_plain(b"\xc3\xa9" * 32 + b"a@b"))

    def test_label_of_63_and_64_octets_L7(self):
        self.assertTrue(is_plain(b"a@" + b"b" * 63))
        self.assertFalse(is_plain(b"a@" + b"b" * 64))
        self.assertTrue(is_plain(b"a@x." + b"b" * 63 + b".y"))
        self.assertFalse(is_plain(b"a@x." + b"b" * 64 + b".y"))

    def test_address_of_254_and_255_octets_L6(self):
        domain = b".".join([b"b" * 63] * 3)
        self.assertEqual(len(domain), 191)
        self.assertTrue(is_plain(b"a" * 62 + b"@" + domain))  # 254
        self.assertFalse(is_plain(b"a" * 63 + b"@" + domain))
        short = b".".join([b"b" * 63] * 3 + [b"c" * 60])
        self.assertTrue(is_plain(b"a@" + short))  # 254
        self.assertFalse(is_plain(b"ab@" + short))


class Canonical(unittest.TestCase):
    def test_ascii_letters_on_both_sides_L8(self):
        self.assertEqual(canonical(b"Alice.B@EXAMPLE.Org"), b"alice.b@example.org")

    def test_single_octets_L8(self):
        # L21: one octet from 128 on is not well formed, and stays.
        for octet in range(256):
            one = bytes([octet])
            expected = bytes([octet + 32]) if 65 <= octet <= 90 else one
            self.assertEqual(canonical(one + b"@b"), expected + b"@b", octet)
            self.assertEqual(canonical(b"a@b" + one), b"a@b" + expected, octet)
            # A text that is not plain is left as it is.
            self.assertEqual(canonical(b"A@B_" + one), b"A@B_" + one, octet)

    def test_the_table_of_L8(self):
        for given, form in [(b"Bob.B@X.Example", b"bob.b@x.example"),
                            ("ÀÞ×ß@X".encode(), "àþ×ß@x".encode()),
                            ("ΑΩΫ@x".encode(), "αωϋ@x".encode()),
                            ("АЯЀЏ@x".encode(), "аяѐџ@x".encode()),
                            ("Ā@x".encode(), "Ā@x".encode()),
                            ("Ö.".encode() + b"\xffA@x", "Ö.".encode() + b"\xffa@x"),
                            ("A@BÜCHER.Example".encode(), b"a@xn--bcher-kva.example"),
                            ("Ö@Ö".encode(), "ö@xn--nda".encode())]:
            self.assertTrue(is_plain(given), given)
            self.assertEqual(canonical(given), form, given)
            self.assertTrue(is_canonical(form), form)
            self.assertFalse(is_canonical(given) and given != form, given)

    def test_every_letter_of_the_ranges_L8_L21(self):
        for capitals, letters in [("ÀÁÂÃÄÅÆÇÈÉÊËÌÍÎÏÐÑÒÓÔÕÖØÙÚÛÜÝÞ", "àáâãäåæçèéêëìíîïðñòóôõöøùúûüýþ"),
                                  ("ΑΒΓΔΕΖΗΘΙΚΛΜΝΞΟΠΡΣΤΥΦΧΨΩΪΫ", "αβγδεζηθικλμνξοπρστυφχψωϊϋ"),
                                  ("АБВГДЕЖЗИЙКЛМНОПРСТУФХЦЧШЩЪЫЬЭЮЯ", "абвгдежзийклмнопрстуфхцчшщъыьэюя"),
                                  ("ЀЁЂЃЄЅІЇЈЉЊЋЌЍЎЏ", "ѐёђѓєѕіїјљњћќѝўџ")]:
            self.assertEqual(len(capitals), len(letters))
            for capital, letter in zip(capitals, letters):
                self.assertEqual(canonical(f"x{capital}Y@z".encode()), f"x{letter}y@z".encode(), capital)
            # L6: 32 of two octets each are as many as there may be.
            self.assertEqual(canonical(f"{capitals}@z".encode()), f"{letters}@z".encode())

    def test_near_misses_are_other_addresses_L8_L21(self):
        for one, other in ["×÷", "\u03a2\u03c2", "Άά", "Ÿÿ", "ẞß", "Ѡѡ", "Āā", "Σς", "ΈE", "Ёе", "Éê", "\u212ak",
                           "\u212bå", "\u0130i", "Ω\u2126", "Аa"]:
            self.assertNotEqual(canonical(f"{one}@b".encode()), canonical(f"{other}@b".encode()), (one, other))
        # A letter and an accent of its own are two code points, and stay two.
        self.assertEqual(canonical("E\u0301@b".encode()), "e\u0301@b".encode())

    def test_one_fault_anywhere_L20_L21(self):
        for fault in [b"\xff", b"\x80", b"\xc3", b"\xc1\x81", b"\xe0\x83\x89", b"\xed\xa0\x80", b"\xf4\x90\x80\x80",
                      b"\xf0\x90\x80", b"\xc3.\x89"]:
            for given, form in [(fault + "ÉA.ΩБ@X".encode(), fault + "Éa.ΩБ@x".encode()),
                                ("ÉA.ΩБ".encode() + fault + b"@X", "Éa.ΩБ".encode() + fault + b"@x"),
                                ("ÉA".encode() + fault + "A.ΩБ@X".encode(), "Éa".encode() + fault + "a.ΩБ@x".encode()),
                                ("ÉA.".encode() + fault + ".ΩБ@X".encode(), "Éa.".encode() + fault + ".ΩБ@x".encode())]:
                self.assertTrue(is_plain(given), given)
                self.assertEqual(canonical(given), form, given)
        # Without the fault all of it becomes small.
        self.assertEqual(canonical("ÉA.ΩБ@X".encode()), "éa.ωб@x".encode())

    def test_ascii_addresses_are_as_ever_L8(self):
        cases = Cases(8)
        drawn = [address for address in (cases.address() for _ in range(4000)) if address.isascii()]
        drawn = [address for address in drawn if is_plain(address)]
        self.assertGreater(len(drawn), 1000)
        for address in drawn:
            self.assertEqual(canonical(address), address.lower(), address)

    def test_beside_the_codec_of_python_L8_L20_L21(self):
        """The local part decoded, letter by letter as `str.lower` has it inside the ranges, and encoded."""
        cases = Cases(8)
        ranges = [range(0x41, 0x5B), range(0xC0, 0xDF), range(0x391, 0x3AC), range(0x400, 0x430)]
        letters = {point: chr(point).lower() for one in ranges for point in one}
        answers = set()
        for _ in range(6000):
            address = cases.accented() if cases.chance(0.7) else cases.peer()
            local, _, domain = address.partition(b"@")
            if not domain.isascii() or not is_plain(address):
                continue
            try:
                form = local.decode("utf-8").translate(letters).encode("utf-8") + b"@" + domain.lower()
            except UnicodeDecodeError:
                form = address.lower()
            self.assertEqual(canonical(address), form, address)
            self.assertEqual(len(form), len(address))
            # L8: its own canonical form.
            self.assertEqual(canonical(form), form, address)
            self.assertEqual(is_canonical(address), is_plain(address) and form == address, address)
            answers.add((is_canonical(address), is_old_canonical(address)))
        # T19: what is canonical was so by the old rule, too.
        self.assertEqual(answers, {(False, False), (False, True), (True, True)})

    def test_the_old_rule_T16(self):
        domain = b".".join([b"b" * 63] * 3)
        for text in [b"a@b", "é@b".encode(), "É@b".encode(), "ΑЯ.ß@b".encode(), b"\xff@b", b"a" * 64 + b"@b",
                     b"a@" + b"b" * 63, b"a" * 62 + b"@" + domain, b"a@xn--9ca", b"a@xn--dca", b"a@b--c"]:
            self.assertTrue(is_old_canonical(text), text)
        for text in [b"A@b", b"a@B", "Éa.Z@b".encode(), b"\xffA@b", b"", b"a", b"a@b.", b"a" * 65 + b"@b", b"a@b@c",
                     b"a@" + b"b" * 64, b"a" * 63 + b"@" + domain, b"a@-b", b"a@b-", b"a@b_", b"a@", b"@b",
                     "a@é".encode(), "a@bücher.example".encode(), b"a@\xff", b"a@xn--"]:
            self.assertFalse(is_old_canonical(text), text)


class Single(unittest.TestCase):
    """L9 to L12, L15 and L16: lists of one address."""

    def test_bare_addresses_L9(self):
        self.assertEqual(addresses(b"a@b"), [b"a@b"])
        self.assertEqual(addresses(b" \ta.b@c.d\t "), [b"a.b@c.d"])
        self.assertEqual(addresses(b"A@B"), [b"A@B"])
        self.assertEqual(addresses(b"(x)a@b(y)"), [b"a@b"])
        self.assertEqual(addresses(b"\xc3\xa9@b"), [b"\xc3\xa9@b"])

    def test_angle_addresses_L9_L10(self):
        for text in [b"<a@b>", b" < a@b > ", b"<\t(x)a@b(y) >", b"Bob <a@b>", b"Bob<a@b>",
                     b"Bob B. <a@b>", b"Bob B. Bobson <a@b>", b'"Bob, B." <a@b>', b'"" <a@b>', b"B.B.<a@b>",
                     b"(x)Bob(y)B(z)<a@b>(w)", b"\xc3\xa9 <a@b>", b'"\xc3\xa9" <a@b>',
                     b"\"a\\\"b\" <a@b>", b"=?utf-8?q?x?= <a@b>"]:
            self.assertEqual(addresses(text), [b"a@b"], text)

    def test_a_dot_is_a_word_L10(self):
        for text in [b". <a@b>", b"... <a@b>", b".<a@b>", b". . \"x\" <a@b>", b".x <a@b>"]:
            self.assertEqual(addresses(text), [b"a@b"], text)

    def test_words_need_not_be_apart_L10(self):
        self.assertEqual(addresses(b'"a""b"c<x@y>'), [b"x@y"])
        self.assertEqual(addresses(b'a"b".c"d"<x@y>'), [b"x@y"])

    def test_blanks_and_comments_never_inside_an_address_L11(self):
        for text in [b"a @b", b"a@ b", b"a. b@c", b"a .b@c", b"a@b .c", b"a@b. c", b"a(c)@b",
                     b"a@(c)b", b"a@b(c).d", b"<a @b>", b"<a@ b>", b"<a(c)@b>", b"<a@b (c).d>",
                     b"a\t@b", b"a.(c)b@d"]:
            self.assertIsNone(addresses(text), text)

    def test_what_ends_an_address_L12(self):
        for text in [b'a@b"x"', b"a@b_", b"a@b.", b"a@b<c@d>", b"a@b:", b"a@b;", b"a@b>", b"a@b[x]",
                     b"a@b@c", b"a@b\\x", b"a@b)", b"a@b\r", b"a@b\x00", b"a@b\xc3", b"a@b\xc3\xa9-", b"a@b-",
                     b"<a@b"]:
            self.assertIsNone(addresses(text), text)
        # Octets of 128 and above go on with the domain.
        self.assertEqual(addresses(b"a@b\xc3\xa9"), [b"a@b\xc3\xa9"])
        for octet in range(256):
            # A letter or a digit goes on with the label.
            good = octet in LETTERS + DIGITS
            text = b"a@b" + bytes([octet])
            expected = [text] if good else [b"a@b"] if octet in b" \t" else None
            self.assertEqual(addresses(text), expected, octet)

    def test_words_and_bare_addresses_do_not_mix_L15(self):
        for text in [b"Bob b@x", b"b@x Bob", b"<a@b> Bob", b"<a@b> <c@d>", b"[x] <a@b>",
                     b"x@y <a@b>", b"Bob", b"Bob Bobson", b'"Bob"', b'"x" a@b', b'"x"a@b', b"a@b c@d",
                     b"a@b <a@b>", b". a@b", b"(c) Bob b@x", b"\\x <a@b>", b")x <a@b>"]:
            self.assertIsNone(addresses(text), text)

    def test_forms_that_are_unreadable_L15(self):
        for text in [b"<>", b"< >", b"Bob <>", b"<@r:a@b>", b"<@r,@s:a@b>", b'"a"@b', b'<"a"@b>',
                     b'"a".b@c', b'a."b"@c', b"a@[1.2.3.4]", b"<a@[1.2.3.4]>", b"a@\xc3",
                     b"<a>", b"<a@>", b"<@b>", b"<a@b", b"a@b>", b"<<a@b>>", b"<a@b>>", b"<a@b,c@d>",
                     b"<Bob a@b>", b"a..b@c", b".a@b", b"a.@b", b"a@-b", b"<a@b>x", b"<a@b>.", b"@",
                     b"<", b">", b"\"", b"(", b")", b"\\", b"a", b".", b"Bob <a@b", b"\"Bob <a@b>",
                     b"(Bob <a@b>", b"Bob (x <a@b>"]:
            self.assertIsNone(addresses(text), text)

    def test_one_address_that_is_no_plain_one_hides_the_rest_L16(self):
        for bad in [b"a" * 65 + b"@b", b'"q"@b', b"a@[1.2.3.4]", b"a@\xc3.x", b"a@" + b"\xc3\xa9" * 58,
                    b"a@" + b"b" * 64]:
            self.assertIsNone(addresses(b"x@y, " + bad))
            self.assertIsNone(addresses(bad + b", x@y"))
            self.assertIsNone(addresses(b"x@y, <" + bad + b">"))
            self.assertIsNone(addresses(b"x@y, g:" + bad + b";"))

    def test_limits_of_an_address_in_a_list_L6_L16(self):
        self.assertEqual(addresses(b"<" + b"a" * 64 + b"@b>"), [b"a" * 64 + b"@b"])
        self.assertIsNone(addresses(b"<" + b"a" * 65 + b"@b>"))
        domain = b".".join([b"b" * 63] * 3)
        self.assertEqual(addresses(b"a" * 62 + b"@" + domain), [b"a" * 62 + b"@" + domain])
        self.assertIsNone(addresses(b"a" * 63 + b"@" + domain))


class Lists(unittest.TestCase):
    def test_several_addresses_L9_L17(self):
        self.assertEqual(addresses(b"a@b,c@d"), [b"a@b", b"c@d"])
        self.assertEqual(addresses(b" a@b , Bob <c@d>(x),(y)<e@f> "), [b"a@b", b"c@d", b"e@f"])
        self.assertEqual(addresses(b"a@b,a@b,A@b"), [b"a@b", b"a@b", b"A@b"])

    def test_empty_places_L13(self):
        for text in [b"", b" ", b"(c)", b",", b"a@b,", b",a@b", b"a@b,,c@d", b"a@b, ,c@d", b"a@b,(c)",
                     b"(c),a@b", b"a@b, (c) ,c@d", b"g: a@b,;", b"g:,a@b;", b"g:a@b,,c@d;", b"g:,;",
                     b"g:;,", b",g:;"]:
            self.assertIsNone(addresses(text), text)

    def test_nothing_to_read_L18(self):
        for text in [b"", b" ", b"\t", b"(c)", b" (c)\t(d) "]:
            self.assertIsNone(addresses(text), text)

    def test_other_separators_L9(self):
        for text in [b"a@b;c@d", b"a@b c@d", b"a@b:c@d", b"a@b|c@d", b"a@b.c@d", b"a@b\r\n ,c@d"]:
            self.assertIsNone(addresses(text), text)

    def test_a_folded_argument_L19(self):
        self.assertIsNone(addresses(b"a@b,\r\n c@d"))
        self.assertIsNone(addresses(b"a@b,\n c@d"))
        self.assertEqual(addresses(b"a@b, c@d"), [b"a@b", b"c@d"])

    def test_no_limit_on_the_number_L17(self):
        self.assertEqual(addresses(b",".join([b"a@b"] * 5000)), [b"a@b"] * 5000)


class Groups(unittest.TestCase):
    """L9, L14 and L15: groups."""

    def test_groups_L9_L17(self):
        self.assertEqual(addresses(b"g:a@b;"), [b"a@b"])
        self.assertEqual(addresses(b" g h (c) : a@b , Bob <c@d> ; (e)"), [b"a@b", b"c@d"])
        self.assertEqual(addresses(b'"g,h":a@b;,c@d'), [b"a@b", b"c@d"])
        self.assertEqual(addresses(b"x@y,g:a@b;,h:c@d;"), [b"x@y", b"a@b", b"c@d"])
        self.assertEqual(addresses(b".:a@b;"), [b"a@b"])
        self.assertEqual(addresses(b"team: a@b, <c@d>;"), [b"a@b", b"c@d"])

    def test_empty_groups_L14_L18(self):
        self.assertEqual(addresses(b"g:;"), [])
        self.assertEqual(addresses(b"g: (c) ;"), [])
        self.assertEqual(addresses(b"g:;,h:;"), [])

    def test_groups_beside_one_address_U3(self):
        self.assertEqual(addresses(b"g: a@b;"), [b"a@b"])
        self.assertEqual(addresses(b"g:;, a@b"), [b"a@b"])

    def test_what_follows_a_group_L14(self):
        for text in [b"g:; a@b", b"g:;a@b", b"g:;;", b"g:", b"g:a@b", b"g:a@b,c@d", b"g", b"g:a@b;x",
                     b"g:;g:;"]:
            self.assertIsNone(addresses(text), text)

    def test_no_inner_groups_L15(self):
        for text in [b"g:h:;;", b"g:h:a@b;;", b"g:a@b,h:c@d;;", b"g:h:a@b;,c@d;"]:
            self.assertIsNone(addresses(text), text)

    def test_a_group_needs_a_phrase_L14(self):
        for text in [b":;", b":a@b;", b"(c):a@b;", b"a@b:c@d;", b"<a@b>:c@d;", b"g: :a@b;"]:
            self.assertIsNone(addresses(text), text)


class CommentsAndControls(unittest.TestCase):
    def test_comment_depth_16_and_17_L2(self):
        self.assertEqual(addresses(nested(16) + b"a@b"), [b"a@b"])
        self.assertIsNone(addresses(nested(17) + b"a@b"))
        self.assertEqual(addresses(b"Bob " + nested(16) + b"<a@b>" + nested(16)), [b"a@b"])
        for place in [b"a@b%s", b"Bob %s <a@b>", b"Bob <%sa@b>", b"Bob <a@b%s>", b"a@b,%sc@d",
                      b"g%s:a@b;", b"g:%sa@b;", b"g:%s;", b"g:a@b;%s"]:
            self.assertIsNotNone(addresses(place % nested(16)), place)
            self.assertIsNone(addresses(place % nested(17)), place)

    def test_each_comment_counts_afresh_L2_L4(self):
        self.assertEqual(addresses(nested(16) + nested(16) + b"a@b"), [b"a@b"])
        self.assertEqual(addresses(b"(\\()a@b"), [b"a@b"])
        self.assertEqual(addresses(b'(")a@b(")'), [b"a@b"])
        self.assertEqual(addresses(b'"(" <a@b>'), [b"a@b"])

    def test_control_octets_L5(self):
        for octet in CONTROLS:
            one = bytes([octet])
            for text in [b'"a' + one + b'" <a@b>', b'"a\\' + one + b'" <a@b>', b"(" + one + b")a@b",
                         b"(\\" + one + b")a@b", one + b"a@b", b"a@b" + one, b"a@b," + one + b"c@d",
                         b"x" + one + b"y <a@b>", b"a" + one + b"@b"]:
                self.assertIsNone(addresses(text), text)

    def test_tabs_L4_L11(self):
        for text in [b'"\t" <a@b>', b'"\\\t" <a@b>', b"(\t)a@b", b"x\ty <a@b>", b"\ta@b\t"]:
            self.assertEqual(addresses(text), [b"a@b"], text)

    def test_every_octet_in_a_phrase_L10(self):
        for octet in range(256):
            good = octet in LETTERS + DIGITS + ATOM_SIGNS + b" \t." or octet >= 128
            expected = [b"a@b"] if good else None
            if octet == ord(":"):
                # A group without its `;`.
                expected = None
            self.assertEqual(addresses(b"x" + bytes([octet]) + b"y <a@b>"), expected, octet)


if __name__ == "__main__":
    unittest.main()
