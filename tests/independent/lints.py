"""Page O run: mails with each fault and without, refusals and lists of each length, and what `lint` says of them.

The class is mixed into test cases, which name the `program`: whatever has the calls of `scope.calls`.
"""

import base64 as standard
import itertools

from scope.linting import FAULTS_LIMIT, Fault
from scope.processing import UNSET
from scope.table import SLOT, entries

# O10: two fields in front of what is looked at, and one that is valid.
HEAD = b"From: a@b\r\nTo: c@d\r\n"
VALID = b"Autocrypt: addr=a@b; keydata=Zg==\r\n"
MAIL = HEAD + VALID

# Room for each of the small lists below.
ROOM = 300

# O10: what stands behind the head, a payload, and the faults.
EXAMPLES = [
    (b"Autocrypt: x=1\r\n", b"", [(0, 0, 1), (0, 3, 3), (0, 3, 4), (0, 3, 5)]),
    (b"Autocrypt: x=1\r\n" + VALID, b"", [(0, 3, 3), (0, 3, 4), (0, 3, 5)]),
    (b"Autocrypt: addr=a@b; keydata=Zg==;\r\n", b"", [(0, 0, 1), (0, 3, 5)]),
    (b"Autocrypt: addr=a@b; keydata=Zg==\r\n", b"", []),
    (b"Autocrypt-Gossip:\r\n", b"", [(0, 0, 1), (0, 3, 5), (0, 3, 6), (0, 3, 7)]),
    (b"", b"Autocrypt-Gossip:\r\n", [(0, 0, 1), (1, 1, 5), (1, 1, 7)]),
    (b"", b"Autocrypt-Gossip: addr=C@D; keydata=Zg==\r\n", [(0, 0, 1)]),
]

# O6 to O9: pieces of a value, each with what it is.
PIECES = [(b"addr=a@b", "sender"), (b"addr=c@d", "recipient"), (b"addr=e@f", "another"), (b"addr=", "no address"),
          (b"keydata=Zg==", "key"), (b"keydata=Zh==", "no key"), (b"prefer-encrypt=mutual", "preference"),
          (b"prefer-encrypt=", "preference"), (b"x=1", "unknown"), (b"Addr=a@b", "unknown"), (b"_x=1", "ignored"),
          (b"x", "none"), (b"=1", "none"), (b"", "none")]

# O8: key data that is as it should be, but for how many octets it has, and key data that is not.
BASE64 = [b"Zg==", b"Zm8=", b"Zm9v", b"Zm9vYg==", b" Zg==\t", b"Z g = =", b"Zm9v\r\n Zm9v", b"", b" ", b"AAAA", b"+/+/"]
NO_BASE64 = [b"Zh==", b"Zm9=", b"Zg", b"Zg=", b"Zg===", b"Z", b"Z===", b"=", b"==", b"====", b"Zg==Zm9v", b"Zm9v=",
             b"Z=g=", b"Zm9v.", b"Z-_v", b"(c)", b"\"Zm9v\"", b"Zm\r9v", b"Zm9\0", b"Zm9\xff", b"Zm9v Z"]

# O7: names that are unknown, such as are ignored, and pieces that are no attributes.
UNKNOWN = [b"x=1", b"x=", b"x==", b"type=1", b"Addr=a@b", b"ADDR=a@b", b"KEYDATA=Zg==", b"Keydata=Zg==",
           b"key data=Zg==", b"Prefer-Encrypt=mutual", b"prefer_encrypt=mutual", b"a_=1", b"\xff=1", b"\0=1", b"\r=1",
           b"addr.=a@b", b"(c)_x=1"]
IGNORED = [b"_=", b"_=1", b"_x=1", b"_x=a=b", b"__=", b"_addr=e@f", b"_keydata=Zh==", b"_prefer-encrypt=mutual",
           b"_ x=1"]
NO_ATTRIBUTE = [b"", b" ", b"\t ", b"x", b"_x", b"_", b"mutual", b"=", b"=1", b" =x", b"\t= ", b"addr", b"keydata",
                b"prefer-encrypt", b"a@b"]


def autocrypt(value: bytes) -> bytes:
    return b"Autocrypt: " + value + b"\r\n"


def gossip(value: bytes) -> bytes:
    return b"Autocrypt-Gossip: " + value + b"\r\n"


def kinds_of(said: list[str], right: str) -> list[int]:
    """Kinds 3, 4, 5 and 8 by what the pieces of a value are; `right` says which address is the right one."""
    addresses = [what for what in said if what in ("sender", "recipient", "another", "no address")]
    keys = [what for what in said if what in ("key", "no key")]
    found = []
    if addresses != [right]:
        found.append(3)
    if "unknown" in said:
        found.append(4)
    if keys != ["key"] or said[-1] != "key":
        found.append(5)
    if "preference" in said:
        found.append(8)
    return found


def is_spoiled(said: list[str], kinds: list[int]) -> bool:
    """Whether pieces of these kinds are those of a field that is not valid for the sender (F3, F7, F12)."""
    return bool({3, 4, 5} & set(kinds)) or "none" in said or said.count("preference") > 1


class Lints:
    """What the rules say of `lint`, example by example."""

    program = None

    def found(self, outer: bytes, payload: bytes = b"") -> list[Fault]:
        """The faults of a mail that is not refused."""
        number, faults = self.program.lint(outer, payload, ROOM)
        self.assertEqual(number, 0, (outer, payload))
        return faults

    def of_autocrypt(self, value: bytes) -> list[int]:
        """The kinds of an Autocrypt field in front of a valid one, which has a 2 if the field is valid as well."""
        faults = self.found(HEAD + autocrypt(value) + VALID)
        self.assertLessEqual({(block, place) for block, place, _ in faults}, {(0, 3), (0, 4)}, value)
        self.assertIn([kind for _, place, kind in faults if place == 4], ([], [2]), value)
        return [kind for _, place, kind in faults if place == 3]

    def of_gossip(self, value: bytes, head: bytes = HEAD) -> list[int]:
        """The kinds of a gossip field in the payload; in the outer block they are the same, and 6."""
        inside = self.found(head + VALID, gossip(value))
        outside = self.found(head + VALID + gossip(value))
        place = 1 + (head + VALID).count(b"\r\n")
        kinds = [kind for _, _, kind in inside]
        self.assertEqual(inside, [(1, 1, kind) for kind in kinds], value)
        self.assertEqual(outside, [(0, place, kind) for kind in sorted(kinds + [6])], value)
        return kinds

    def test_the_examples_O10(self):
        for more, payload, faults in EXAMPLES:
            self.assertEqual(self.found(HEAD + more, payload), faults, more)

    def test_places_count_all_fields_O2(self):
        other, bad = b"X: y\r\n", b"AUTOCRYPT:x=1\r\n"
        folded = b"Subject: a\r\n b\r\n\tAutocrypt: x=1\r\n \r\n"
        for before, place in [(b"", 3), (other, 4), (other * 9, 12), (folded, 4), (other + folded + other, 6)]:
            three = [(0, place, 3), (0, place, 4), (0, place, 5)]
            self.assertEqual(self.found(HEAD + before + bad + VALID), three)
            # The faults of a folded field stand at its one place, and what is behind it is at the next.
            self.assertEqual(self.found(HEAD + before + b"autocrypt:\r\n x\r\n =1\r\n" + VALID + VALID),
                             three + [(0, place + 2, 2)])
        self.assertEqual(self.found(bad + VALID + HEAD), [(0, 1, 3), (0, 1, 4), (0, 1, 5)])
        # A payload counts its own fields.
        for before, place in [(b"", 1), (other, 2), (folded, 2), (other * 4 + folded, 6), (HEAD + VALID, 4)]:
            self.assertEqual(self.found(MAIL, before + b"autocrypt-GOSSIP:\n"), [(1, place, 5), (1, place, 7)])

    def test_behind_the_empty_line_is_nothing_B5(self):
        for rest in (VALID, autocrypt(b"x=1"), gossip(b"x=1"), b"no field"):
            self.assertEqual(self.found(MAIL + b"\r\n" + rest, b"\n" + rest), [])
            self.assertEqual(self.found(HEAD + b"\n" + rest), [(0, 0, 1)])

    def test_the_order_O4(self):
        bad = b"addr=e@f; prefer-encrypt=mutual; prefer-encrypt=x; x=1; y=2"
        told = gossip(b"addr=c@d; keydata=Zg==")
        outer = gossip(bad) + VALID + HEAD + autocrypt(bad) + VALID + b"X:\r\n" + VALID + told
        payload = b"X:\r\n" + told + gossip(bad) + gossip(b"addr=c@d; x=1; keydata=Zg==")
        faults = [(0, 1, 4), (0, 1, 5), (0, 1, 6), (0, 1, 7), (0, 1, 8), (0, 5, 3), (0, 5, 4), (0, 5, 5), (0, 6, 2),
                  (0, 8, 2), (0, 9, 6), (1, 3, 4), (1, 3, 5), (1, 3, 7), (1, 3, 8), (1, 4, 4)]
        self.assertEqual(self.found(outer, payload), faults)
        # Kind 1 comes first, at place 0, also where it is the field of place 1 that is not valid.
        self.assertEqual(self.found(autocrypt(bad) + HEAD, payload)[:4], [(0, 0, 1), (0, 1, 3), (0, 1, 4), (0, 1, 5)])

    def test_each_kind_once_a_field_O4(self):
        self.assertEqual(self.of_autocrypt(b"x=1; y=2; Addr=z; addr=1; addr=2; keydata=.; keydata=.; x=1"), [3, 4, 5])
        told = b"x=1; x=1; prefer-encrypt=1; prefer-encrypt=2; addr=e@f; addr=g@h"
        self.assertEqual(self.of_gossip(told), [4, 5, 7, 8])

    def test_valid_fields_O5(self):
        twice = b"Autocrypt: addr=A@B; prefer-encrypt=mutual; _x=1; keydata=Zm9v\r\n"
        too_long = autocrypt(b"addr=a@b; keydata=" + b"AAAA" * 683)
        others = [autocrypt(b"addr=c@d; keydata=Zg=="), autocrypt(b"addr=a@b; x; keydata=Zg=="), too_long,
                  autocrypt(b"addr=a@b; prefer-encrypt=x; prefer-encrypt=x; keydata=Zg=="),
                  autocrypt(b"addr=a@b; keydata=")]
        for first, second in itertools.product((VALID, twice), repeat=2):
            self.assertEqual(self.found(HEAD + first), [])
            self.assertEqual(self.found(HEAD + first + second), [(0, 4, 2)])
            self.assertEqual(self.found(first + HEAD + second + first), [(0, 4, 2), (0, 5, 2)])
            for other in others:
                # One that is not valid is none of several, wherever it stands.
                faults = [fault for fault in self.found(other + first + other + HEAD + second + other) if fault[2] < 3]
                self.assertEqual(faults, [(0, 6, 2)], other)
                # Alone it is none at all.
                self.assertIn((0, 0, 1), self.found(HEAD + other), other)
                self.assertNotIn((0, 0, 1), self.found(HEAD + other + first), other)
        self.assertEqual(self.found(HEAD), [(0, 0, 1)])
        # A valid one in the payload is no valid one of the mail.
        self.assertEqual(self.found(HEAD, VALID), [(0, 0, 1)])

    def test_the_sender_in_every_spelling_O6(self):
        for sender, spellings, others in [
                ("a@b", ["A@b", "a@B"], ["á@b", "a@b.c", "aa@b"]),
                ("Éва@f", ["éва@f", "ÉВА@F"], ["eва@f", "év@f"]),
                ("d@bücher", ["D@BÜCHER", "d@xn--bcher-kva", "d@XN--BCHER-KVA"], ["d@bucher", "d@xn--dca"])]:
            head = b"From: Me <" + sender.encode() + b">\r\n"
            for addr in [sender] + spellings:
                self.assertEqual(self.found(head + autocrypt(b"addr=" + addr.encode() + b"; keydata=Zg==")), [])
            for addr in others:
                self.assertEqual(self.found(head + autocrypt(b"addr=" + addr.encode() + b"; keydata=Zg==")),
                                 [(0, 0, 1), (0, 2, 3)])
        # U3: the sender of a group.
        self.assertEqual(self.found(b"From: g: A@b;, h:;\r\n" + VALID), [])

    def test_one_plain_address_O6(self):
        """None, two, and what is not plain, is the wrong address, of kind 3 or of kind 7; what else there is does not
        matter."""
        for wrong in [b"", b"addr=", b"addr=%s; addr=%s", b"addr=%s; addr=e@f", b"addr=e@f; addr=%s", b"addr=%s; addr=",
                      b"addr=<%s>", b"addr=%s (c)", b"addr=\"%s\"", b"addr=%s, %s", b"addr=Me <%s>", b"addr=@%s",
                      b"Addr=%s", b"_addr=%s", b"addr", b"=%s", b"%s", b"add r=%s", b"addr==%s", b"addr=%s.",
                      b"addr=x%s", b"addr=%s\xff", b"addr=%s\r", b"addr=e@f"]:
            self.assertIn(3, self.of_autocrypt(wrong.replace(b"%s", b"a@b") + b"; keydata=Zg=="), wrong)
            self.assertIn(7, self.of_gossip(wrong.replace(b"%s", b"c@d") + b"; keydata=Zg=="), wrong)
        for right in [b"addr=%s", b"addr = %s ", b"\taddr\t=\t%s\t", b"addr=%s; x=1", b"x; addr=%s", b"addr=%s; addr",
                      b"Addr=e@f; addr=%s", b"_addr=e@f; addr=%s; keydata=.", b"prefer-encrypt=x; addr=%s; =addr",
                      b"addr\r\n =\r\n %s\r\n "]:
            self.assertNotIn(3, self.of_autocrypt(right.replace(b"%s", b"a@b")), right)
            self.assertNotIn(7, self.of_gossip(right.replace(b"%s", b"c@d")), right)

    def test_who_is_a_recipient_O6_G4(self):
        told = b"addr=c@d; keydata=Zg=="
        for lists in [b"To: c@d\r\n", b"Cc: C <C@D>\r\n", b"REPLY-TO: g: e@f, c@d;\r\n", b"To: e@f\r\nTo: c@d\r\n",
                      b"To: c@d,\r\nCc: c@d\r\n", b"Cc: c@d\r\nTo: c@d,\r\n", b"To: (c@d) c@d (e@f)\r\n"]:
            self.assertEqual(self.of_gossip(told, b"From: a@b\r\n" + lists), [], lists)
        for lists in [b"", b"To: e@f\r\n", b"To: c@d,\r\n", b"To: c@d, e\r\n", b"To: e@f (c@d)\r\n", b"Bcc: c@d\r\n",
                      b"Sender: c@d\r\n", b"Resent-To: c@d\r\n", b"To: \"c@d\" <e@f>\r\n", b"To:\r\n", b"X-To: c@d\r\n",
                      b"Subject: c@d\r\n", b"Autocrypt: addr=c@d; keydata=Zg==\r\n"]:
            self.assertIn(7, self.gossip_in(b"From: a@b\r\n" + lists + VALID, gossip(told)), lists)
        # From makes nobody a recipient, and a sender who is one may be told of.
        self.assertEqual(self.of_gossip(b"addr=a@b; keydata=Zg=="), [7])
        self.assertEqual(self.of_gossip(b"addr=a@b; keydata=Zg==", b"From: a@b\r\nTo: A@B\r\n"), [])
        # Recipients are those of the outer block.
        self.assertEqual(self.gossip_in(b"From: a@b\r\n" + VALID, b"To: c@d\r\n" + gossip(told)), [7])

    def gossip_in(self, outer: bytes, payload: bytes) -> list[int]:
        """The kinds of the faults of a payload."""
        return [kind for block, _, kind in self.found(outer, payload) if block == 1]

    def test_recipients_in_every_spelling_O6(self):
        for listed, addr in [("É@x", "é@x"), ("c@bücher", "C@XN--BCHER-KVA"), ("c@xn--bcher-kva", "c@BÜCHER")]:
            head = b"From: a@b\r\nTo: " + listed.encode() + b"\r\n"
            self.assertEqual(self.of_gossip(b"addr=" + addr.encode() + b"; keydata=Zg==", head), [])
        head = "From: a@b\r\nTo: c@bücher\r\n".encode()
        self.assertEqual(self.of_gossip(b"addr=c@bucher; keydata=Zg==", head), [7])

    def test_unknown_attributes_O7(self):
        for piece, place in itertools.product(UNKNOWN, range(3)):
            for blank in (b"", b" ", b"\t"):
                pieces = [b"addr=%s", b"_x=", b"keydata=Zg=="]
                pieces.insert(place, blank + piece + blank)
                value = b";".join(pieces)
                self.assertEqual(self.of_autocrypt(value.replace(b"%s", b"a@b")), [4], value)
                self.assertEqual(self.of_gossip(value.replace(b"%s", b"c@d")), [4], value)
        for piece in IGNORED:
            value = b"addr=%s; " + piece + b"; keydata=Zg=="
            self.assertEqual(self.found(HEAD + autocrypt(value.replace(b"%s", b"a@b"))), [], piece)
            self.assertEqual(self.of_gossip(value.replace(b"%s", b"c@d")), [], piece)

    def test_pieces_that_are_no_attributes_O7_F3(self):
        """They are no fault by themselves, and make the field not valid; behind the key data this is not last."""
        for piece in NO_ATTRIBUTE:
            for value in (piece + b";addr=%s; keydata=Zg==", b"addr=%s;" + piece + b";keydata=Zg=="):
                own = autocrypt(value.replace(b"%s", b"a@b"))
                self.assertEqual(self.found(HEAD + own), [(0, 0, 1)], value)
                self.assertEqual(self.found(HEAD + own + VALID), [], value)
                self.assertEqual(self.of_gossip(value.replace(b"%s", b"c@d")), [], value)
            value = b"addr=%s; keydata=Zg==;" + piece
            self.assertEqual(self.found(HEAD + autocrypt(value.replace(b"%s", b"a@b"))), [(0, 0, 1), (0, 3, 5)], value)
            self.assertEqual(self.of_gossip(value.replace(b"%s", b"c@d")), [5], value)

    def test_key_data_last_O8(self):
        for rest in [b"", b"; keydata=Zg==; _x=1", b"; keydata=Zg==;", b"; keydata=Zg==; ", b"; keydata=Zg==;;",
                     b"; keydata", b"; keydata=Zg==; keydata=Zg==", b"; keydata=; keydata=Zg==",
                     b"; keydata=Zg==; keydata", b"; =Zg==", b"; _keydata=Zg==",
                     b"; keydata=Zg==; prefer-encrypt=mutual"]:
            own, told = b"addr=a@b" + rest, b"addr=c@d" + rest
            self.assertEqual(self.found(HEAD + autocrypt(own)), [(0, 0, 1), (0, 3, 5)], rest)
            self.assertEqual(self.of_gossip(told), [5, 8] if b"prefer" in rest else [5], rest)
        for name in (b"Keydata", b"KEYDATA", b"key data", b"keydat", b"keydataa"):
            self.assertEqual(self.of_autocrypt(b"addr=a@b; " + name + b"=Zg=="), [4, 5], name)
            self.assertEqual(self.of_gossip(b"addr=c@d; " + name + b"=Zg=="), [4, 5], name)
        # In front of it anything may stand.
        self.assertEqual(self.found(HEAD + autocrypt(b"prefer-encrypt=mutual; _x=1; addr=a@b; keydata=Zg==")), [])

    def test_key_data_in_base64_O8(self):
        for texts, kinds in ((BASE64, []), (NO_BASE64, [5])):
            for text in texts:
                self.assertEqual(self.of_autocrypt(b"addr=a@b; keydata=" + text), kinds, text)
                self.assertEqual(self.of_gossip(b"addr=c@d; keydata = " + text), kinds, text)

    def test_keys_of_any_length_O8_F10(self):
        """None, and more than 2,048 octets, spoil a field, and are no fault of kind 5."""
        for length in (0, 1, 2, 3, 2047, 2048, 2049, 2050, 20_000):
            text = standard.b64encode(bytes(length))
            own = HEAD + autocrypt(b"addr=a@b; keydata=" + text)
            self.assertEqual(self.found(own), [] if 1 <= length <= 2048 else [(0, 0, 1)], length)
            self.assertEqual(self.of_autocrypt(b"addr=a@b; keydata=" + text), [], length)
            self.assertEqual(self.of_gossip(b"addr=c@d; keydata=" + text), [], length)

    def test_preferences_O9(self):
        for value in (b"mutual", b"nopreference", b"Mutual", b"", b"=", b"x y"):
            piece = b"prefer-encrypt=" + value
            for told in (b"addr=c@d; " + piece + b"; keydata=Zg==", piece + b"; addr=c@d; keydata=Zg==",
                         b"addr=c@d;\t" + piece + b" ; " + piece + b"; keydata=Zg=="):
                self.assertEqual(self.of_gossip(told), [8], told)
            # An Autocrypt field may have one. Two are no fault, and make the field not valid (F7).
            self.assertEqual(self.found(HEAD + autocrypt(b"addr=a@b; " + piece + b"; keydata=Zg==")), [], value)
            twice = autocrypt(b"addr=a@b; " + piece + b"; " + piece + b"; keydata=Zg==")
            self.assertEqual(self.found(HEAD + twice), [(0, 0, 1)], value)
            self.assertEqual(self.found(HEAD + twice + VALID), [], value)
        for piece, kinds in [(b"prefer-encrypt", []), (b"_prefer-encrypt=mutual", []), (b"Prefer-Encrypt=mutual", [4]),
                             (b"prefer-encrypt x=mutual", [4]), (b"prefer encrypt=mutual", [4])]:
            self.assertEqual(self.of_gossip(b"addr=c@d; " + piece + b"; keydata=Zg=="), kinds, piece)

    def test_which_fields_are_looked_at_O3(self):
        for bad in (b"x=1", b"", b"addr=e@f; keydata=."):
            # Other names, of which these are parts, and an Autocrypt field in the payload.
            for name in (b"X-Autocrypt", b"Autocrypt-", b"Autocrypt-Gossip-X", b"Autocrypt_Gossip", b"Autocryp",
                         b"Gossip", b"Autocrypt-Setup-Message"):
                line = name + b": " + bad + b"\r\n"
                self.assertEqual(self.found(MAIL + line, line), [], line)
            self.assertEqual(self.found(MAIL, autocrypt(bad)), [], bad)
            self.assertEqual(self.found(MAIL, HEAD + VALID + autocrypt(bad)), [], bad)
        # Kind 6 is for good gossip as well.
        told = gossip(b"addr=c@d; keydata=Zg==")
        self.assertEqual(self.found(told + MAIL + told, told), [(0, 1, 6), (0, 5, 6)])

    def test_every_row_of_pieces_O6_O7_O8_O9(self):
        """One piece up to three, each of them any of PIECES."""
        for many in (1, 2, 3):
            for row in itertools.product(PIECES, repeat=many):
                value, said = b"; ".join(piece for piece, _ in row), [what for _, what in row]
                kinds = [kind for kind in kinds_of(said, "sender") if kind != 8]
                own = [(0, 3, kind) for kind in kinds] + [(0, 4, 2)] * (not is_spoiled(said, kinds))
                self.assertEqual(self.found(HEAD + autocrypt(value) + VALID), own, value)
                told = [7 if kind == 3 else kind for kind in kinds_of(said, "recipient")]
                self.assertEqual(self.of_gossip(value), sorted(told), value)

    def test_4_R4(self):
        for outer in [b" " + MAIL, MAIL + b"x\r\n", b"\r", MAIL + b"\r", b"From a@b\r\n" + MAIL, MAIL + b": x\r\n",
                      MAIL + b"\r\n" + b"x" * 65536]:
            self.assertEqual(self.program.lint(outer, b"", ROOM), (4, []), outer[:60])
        filler = b"\r\n" + b"x" * (65536 - 2 - len(MAIL))
        self.assertEqual(self.program.lint(MAIL + filler, b"", ROOM), (0, []))
        self.assertEqual(self.program.lint(MAIL + filler + b"x", b"", ROOM), (4, []))

    def test_5_R5(self):
        for outer in [b"", b"\r\n" + MAIL, VALID, b"Sender: a@b\r\n", b"From:\r\n", b"From: a@b, c@d\r\n", MAIL + MAIL,
                      b"From: g:;\r\n", b"From: a@b,\r\n", b"From: a\r\n", b"From: <>\r\n", b"From: a@b\r",
                      b"from: a@b\r\n" + MAIL, b"From: g: a@b, c@d;\r\n", b"From: a@\xc3\r\n"]:
            self.assertEqual(self.program.lint(outer, b"", ROOM), (5, []), outer)
            self.assertEqual(self.program.lint(outer, MAIL, ROOM), (5, []), outer)

    def test_7_R7_O1(self):
        for payload in [b"x", b" A:b\r\n", b"\r", b":", b"A :b\r\n", b"\n" * 65537, b"A:" + b"b" * 65535]:
            self.assertEqual(self.program.lint(MAIL, payload, ROOM), (7, []), payload[:60])
        for payload in [b"", b"\n", b"\r\n", b"\nx", b"\n" * 65536, b"A:" + b"b" * 65534, b"X:"]:
            self.assertEqual(self.program.lint(MAIL, payload, ROOM), (0, []), payload[:60])

    def test_12_R12_O1(self):
        """Three numbers for each fault are enough, one less is not; more stay as they were."""
        for more, payload, faults in EXAMPLES:
            just = 3 * len(faults)
            for room in range(just + 5):
                answer = (0, faults) if room >= just else (12, [])
                self.assertEqual(self.program.lint(HEAD + more, payload, room), answer, (more, room))

    def test_the_order_of_testing_O1_R31(self):
        unreadable, nobody, faulty = b"x", b"To: c@d\r\n", HEAD + autocrypt(b"x=1")
        for payload, room in itertools.product((b"", b"x", gossip(b"x=1")), (0, 1, ROOM)):
            self.assertEqual(self.program.lint(unreadable, payload, room), (4, []))
            self.assertEqual(self.program.lint(nobody, payload, room), (5, []))
            self.assertEqual(self.program.lint(nobody + unreadable, payload, room), (4, []))
        for room in (0, 1, 11, 12, ROOM):
            self.assertEqual(self.program.lint(faulty, unreadable, room), (7, []))
            self.assertEqual(self.program.lint(faulty, b"", room)[0], 12 if room < 12 else 0)

    def test_a_report_is_not_refused_O1(self):
        report = b"Content-Type: multipart/report; report-type=x\r\n"
        self.assertEqual(self.found(MAIL + report, report), [])
        self.assertEqual(self.found(report + HEAD + report, report + gossip(b"")), [(0, 0, 1), (1, 2, 5), (1, 2, 7)])

    def test_what_our_writers_wrote_C23(self):
        people = [b"a@b", b"Bob.B@X.Example", "Éва@Сад.пример".encode(), b"\xc3\x89\xffA@B",
                  b"x" * 64 + b"@" + b"y" * 63]
        for sender, (mutual, length) in itertools.product(people, [(False, 1), (True, 57), (True, 58), (False, 2048)]):
            number, own = self.program.write_autocrypt(sender, bytes(length), mutual, 3200)
            told = [self.program.write_gossip(name, bytes(length), 3200) for name in people]
            self.assertEqual([number] + [number for number, _ in told], [0] * 6)
            lists = b"To: " + b", ".join(people[:3]) + b"\r\nCc: " + b",".join(people[3:]) + b"\r\n"
            head = b"From: " + sender + b"\r\n" + lists
            for outer in (own + head, head + own, b"X:y\n" + head + own + b"X:y\n"):
                self.assertEqual(self.found(outer), [])
                self.assertEqual(self.found(outer, b"X:y\n" + b"".join(field for _, field in told * 3)), [])
            # In the outer block, or for somebody who is not listed, they are faults.
            self.assertEqual(self.found(head + own + told[0][1]), [(0, 5, 6)])
            self.assertEqual(self.found(b"From: " + sender + b"\r\n" + own, told[0][1]), [(1, 1, 7)])

    def test_where_a_field_counts_C24(self):
        """With a fault of kind 1 or 2 none counts, without one the sender's does, whatever else is wrong."""
        twice = autocrypt(b"addr=A@b; prefer-encrypt=mutual; keydata=Zm9v")
        others = [b"", autocrypt(b"x=1"), autocrypt(b"addr=c@d; keydata=Zg=="), autocrypt(b"addr=a@b; keydata=Zg==;"),
                  gossip(b"")]
        for valid, other in itertools.product(([], [VALID], [twice], [VALID, VALID], [VALID, twice, VALID]), others):
            outer = HEAD + other + b"".join(valid) + other
            kinds = {kind for _, _, kind in self.found(outer)}
            number, _, after = self.program.process(bytes(SLOT), 5, outer, b"", UNSET)
            counts = entries(after)[0].direct_key is not None
            self.assertEqual((number, counts), (0, len(valid) == 1))
            self.assertEqual(kinds & {1, 2}, {1} if not valid else {2} if len(valid) > 1 else set())

    def test_full_blocks_O11(self):
        """Full of fields with three faults each; and a few faults more, where some are changed for longer ones."""
        outer = b"From:a@b\n" + b"Autocrypt:x=\n" * 5040
        payload = b"Autocrypt-Gossip:x=\n" * 3276
        self.assertEqual((len(outer), len(payload)), (65_529, 65_520))
        faults = [(0, 0, 1)] + [(0, place, kind) for place in range(2, 5042) for kind in (3, 4, 5)]
        faults += [(1, place, kind) for place in range(1, 3277) for kind in (4, 5, 7)]
        self.assertEqual(len(faults), 24_949)
        for room in (3 * len(faults), 3 * len(faults) + 1, 3 * FAULTS_LIMIT):
            self.assertEqual(self.program.lint(outer, payload, room), (0, faults))
        for room in (0, 3 * len(faults) - 3, 3 * len(faults) - 1):
            self.assertEqual(self.program.lint(outer, payload, room), (12, []))
        outer = b"From:a@b\n" + b"Autocrypt:x=\n" * 5039 + b"Autocrypt-Gossip:x=\n"
        payload = b"Autocrypt-Gossip:x=\n" * 3275 + b"Autocrypt-Gossip:x=;prefer-encrypt="
        self.assertEqual((len(outer), len(payload)), (65_536, 65_535))
        number, faults = self.program.lint(outer, payload, 3 * FAULTS_LIMIT)
        self.assertEqual((number, len(faults)), (0, 24_951))
        self.assertEqual(faults[15_118:15_122], [(0, 5041, kind) for kind in (4, 5, 6, 7)])
        self.assertEqual(faults[-4:], [(1, 3276, kind) for kind in (4, 5, 7, 8)])

    def test_full_of_valid_fields_O5(self):
        """Each but the first is a fault, and the last one has the place of the last field of a full block."""
        line = b"Autocrypt:addr=a@b;keydata=AA==\n"
        many = (65_536 - 9) // len(line)
        number, faults = self.program.lint(b"From:a@b\n" + line * many, line * many, 3 * many)
        self.assertEqual((number, faults), (0, [(0, place, 2) for place in range(3, many + 2)]))
