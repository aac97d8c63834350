"""L6 to L8, L22, L23, W11, W12 and C20: domains in other scripts, in every field and argument."""

import random
import unittest

import domains
from scope import calls, punycode, utf8
from scope.address import canonical, is_canonical, is_label, is_old_canonical, is_plain, label_form
from scope.displaying import shown, shown_label


class Domains(domains.Domains, unittest.TestCase):
    program = calls


def codec_form(label: str) -> bytes:
    """The form of a label by Python's codecs, lower case by `str.lower` inside the ranges (L21, L22)."""
    ranges = [range(0x41, 0x5B), range(0xC0, 0xDF), range(0x391, 0x3AC), range(0x400, 0x430)]
    small = "".join(letter.lower() if any(ord(letter) in one for one in ranges) else letter for letter in label)
    return small.encode() if label.isascii() else b"xn--" + small.encode("punycode")


def letters(source: random.Random) -> str:
    """A label of letters, capitals, digits and hyphens, some or none beyond ASCII."""
    alphabet = source.choice(["abzABZ019-", "éÉüÜàþ×÷ßøabB-", "αΩΫςσΆx", "жЯЀЏёѐя1-", "他们为\u3002\u0080",
                              "\U0010ffff\U00010000a", "éЖΩ他\ufffe-A", "xn-é"])
    return "".join(source.choice(alphabet) for _ in range(source.choice([1, 2, 3, 4, 6, 8, 20, 50, 57, 58, 60])))


class Labels(unittest.TestCase):
    """L7, L20 and L22: labels, beside the codecs of Python."""

    def test_beside_the_codecs_L22(self):
        source = random.Random(22)
        answers = []
        for _ in range(6000):
            text = letters(source)
            form = codec_form(text)
            expected = text[0] != "-" and text[-1] != "-" and len(form) <= 63
            self.assertEqual(label_form(text.encode()), form, text)
            self.assertEqual(is_label(text.encode()), expected, text)
            self.assertEqual(is_plain(b"a@" + text.encode()), expected, text)
            answers.append(expected)
            if expected:
                # L8: a form is its own form. W12: and a label beyond ASCII is shown in lower case.
                self.assertTrue(is_canonical(b"a@" + form), text)
                self.assertEqual(is_canonical(b"a@" + text.encode()), text.encode() == form, text)
                if not text.isascii():
                    self.assertEqual(label_form(shown_label(form)), form)
                    self.assertEqual(shown_label(form), utf8.encoded([utf8.small(ord(letter)) for letter in text]))
        self.assertGreater(min(answers.count(False), answers.count(True)), 1000)

    def test_every_code_point_is_asked_nothing_else_L22(self):
        for point in [*range(0x80, 0x3100), 0xD7FF, 0xE000, *range(0xFDD0, 0xFDF0), 0xFFFE, 0xFFFF, 0x1FFFE, 0x10FFFF]:
            self.assertTrue(is_label(chr(point).encode()), hex(point))
            self.assertTrue(is_label(f"x{chr(point)}-y".encode()), hex(point))
            self.assertFalse(is_label(f"-{chr(point)}".encode()), hex(point))
            self.assertFalse(is_label(f"{chr(point)}-".encode()), hex(point))

    def test_the_hyphen_is_tested_before_the_conversion_L7(self):
        # A form has its hyphens at other places than the label.
        self.assertFalse(is_label("-é".encode()))
        self.assertTrue(is_label(b"xn----bga"))
        self.assertTrue(is_label("é-é".encode()))

    def test_a_label_by_itself_L20(self):
        # One that is not well formed spoils the domain, wherever it stands; a dot parts octets of one code point.
        for domain in [b"\xc3", b"b.\xc3", b"\xc3.b", b"\xc3\xa9.\xa9", b"\xc3.\xa9", b"\xe4\xbb.\x96",
                       b"\xff.\xc3\xa9"]:
            self.assertFalse(is_plain(b"a@" + domain), domain)

    def test_any_octets_L20_L22(self):
        source = random.Random(23)
        answers = []
        for _ in range(12_000):
            telling = [0x61, 0x41, 0x2D, 0x80, 0xBF, 0xC3, 0xA9, 0xE4, 0xED, 0xF0, 0xF4, source.randrange(256)]
            octets = bytes(source.choice(telling) for _ in range(source.randrange(1, 6)))
            try:
                text = octets.decode("utf-8")
            except UnicodeDecodeError:
                text = None
            good = text is not None and text[0] != "-" and text[-1] != "-" and not any(
                letter.isascii() and not letter.isalnum() and letter != "-" for letter in text)
            self.assertEqual(is_label(octets), good, octets)
            answers.append(good)
        self.assertGreater(min(answers.count(False), answers.count(True)), 500)


class Forms(unittest.TestCase):
    """L6 and L8 on addresses made from a seed; C20."""

    def drawn(self, many: int) -> list[bytes]:
        source = random.Random(8)
        found = []
        for _ in range(many):
            labels = [letters(source).encode() for _ in range(source.choice([1, 1, 2, 3, 5, 30]))]
            if source.randrange(4) == 0:
                # A form in the place of a label, some of it changed.
                form = bytearray(label_form(source.choice(labels)) if source.randrange(2) else b"xn--a")
                form[source.randrange(len(form))] = source.choice(punycode.DIGITS)
                labels.append(bytes(form))
            local = source.choice([b"a", "É".encode(), "ΑЯ.x".encode(), b"\xc3\xff", b"a" * 64, b"A" * 65])
            found.append(local + b"@" + b".".join(labels))
        return found

    def test_as_a_whole_L6_L8_W12_C20(self):
        sorts = {False: 0, True: 0}
        lengths, changed = set(), 0
        for address in self.drawn(6000):
            plain = is_plain(address)
            sorts[plain] += 1
            form = canonical(address)
            # L8: twice is once, of every text.
            self.assertEqual(canonical(form), form, address)
            if not plain:
                self.assertEqual(form, address)
                continue
            self.assertTrue(is_canonical(form), address)
            # T19: what is canonical was so by the old rule.
            self.assertTrue(is_old_canonical(form), address)
            self.assertEqual(is_canonical(address), form == address, address)
            self.assertTrue(form.partition(b"@")[2].isascii(), address)
            self.assertLessEqual(len(form), 254)
            self.assertEqual(len(form.split(b"@")[0]), len(address.split(b"@")[0]))
            lengths.add((len(form) > len(address)) - (len(form) < len(address)))
            # C20: the form of what is shown is the form, and it is shown in no other way.
            text = shown(address)
            self.assertEqual(canonical(text), form, address)
            self.assertEqual(shown(text), text, address)
            self.assertLessEqual(len(text), 1024)
            changed += text != form
        self.assertGreater(min(sorts.values()), 1500, sorts)
        self.assertEqual(lengths, {-1, 0, 1})
        self.assertGreater(changed, 500)

    def test_the_length_that_counts_is_that_of_the_form_L6(self):
        for many, label in [(31, "é"), (28, "éa"), (4, "é" * 55), (3, "\U0010ffff" * 55)]:
            domain = "@" + ".".join([label] * many)
            form = "@" + ".".join([codec_form(label).decode()] * many)
            for local in range(1, 65):
                for text in (domain, form):
                    address = ("a" * local + text).encode()
                    self.assertEqual(is_plain(address), local + len(form) <= 254, address)

    def test_no_plain_address_is_longer_than_what_may_be_shown_W11(self):
        # L20, L22: a code point has four octets at most, and takes one octet of the form at least.
        for address in self.drawn(2000):
            if is_plain(address):
                self.assertLessEqual(len(address), 4 * len(canonical(address)))


if __name__ == "__main__":
    unittest.main()
