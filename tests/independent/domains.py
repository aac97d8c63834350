"""L6 to L8, L22, L23, W11, W12 and C20 run: domains in other scripts, wherever an address may stand, and what is shown.

The class is mixed into test cases, which name the `program`: whatever has the calls of `scope.calls`.
"""

import itertools

import rfc3492
from mails import A, B, C, RECEIPT, gossip_field, key_field, mail
from scope.processing import TAKE, UNSET
from scope.table import SLOT, Entry, entries, slot_of, table_of

# W11: room for every address shown.
ROOM = 1024


def octets(text: str | bytes) -> bytes:
    return text if isinstance(text, bytes) else text.encode()


def domain(*labels: str) -> str:
    return "a@" + ".".join(labels)


# L8, L22: an address, and its canonical form.
FORMS = [(octets(given), form.encode()) for given, form in [
    ("A@BÜCHER.Example", "a@xn--bcher-kva.example"), ("a@bücher.example", "a@xn--bcher-kva.example"),
    ("A@XN--BCHER-KVA.Example", "a@xn--bcher-kva.example"), ("Ö@Ö", "ö@xn--nda"), ("ö@ö", "ö@xn--nda"),
    # One that opens with `xn--` is coded like others, if it is not in ASCII, and kept if it is, decode what may.
    ("a@xn--é", "a@xn--xn---epa"), ("a@XN--É", "a@xn--xn---epa"), ("a@xn--a", "a@xn--a"), ("a@xn--DCA", "a@xn--dca"),
    ("a@xn----BGA", "a@xn----bga"), ("a@xn--ZZZZZZZZ", "a@xn--zzzzzzzz"), ("a@xn---a", "a@xn---a"),
    # Hyphens inside, at the third and the fourth place too.
    ("a@é-é", "a@xn----9fab"), ("a@b--é", "a@xn--b---dma"), ("a@é--b", "a@xn----b-9la"),
    # Labels are coded one by one, and those in ASCII stay.
    ("É@É.e.É", "é@xn--9ca.e.xn--9ca"), ("a@E.é", "a@e.xn--9ca"),
    # U+0080, which is the least there is; U+3002, which is no dot; U+FFFE and U+10FFFF, which stand for no character.
    ("a@\x80", "a@xn--a"), ("a@é。é", "a@xn--9caa4827a"), ("a@\ufffe", "a@xn--0n7c"), ("a@\U0010ffff", "a@xn--dn32g"),
    # L21: the lower case of the ranges, and no other.
    ("a@ÀÞ×ß", "a@xn--rcaqb4j"), ("a@ΑΩΫ", "a@xn--mxa2cg"), ("a@АЯЀЏ", "a@xn--80a6dd4d"), ("a@Ā", "a@xn--xda"),
    ("a@ā", "a@xn--yda"), ("a@Ÿ", "a@xn--dha"), ("a@ẞ", "a@xn--kkg"), ("a@e\u0301", "a@xn--e-xbb"),
]]

# L6, L7, L20: no plain addresses.
NO_FORM = [octets(text) for text in [
    "a@-é", "a@é-", "a@é_", "a@é..b", "a@.é", "a@é.", b"a@\xc3", b"a@\xed\xa0\x80", "a@xn--", "a@XN--", "a@é@b",
    "a@é b", "a@é,", "a@\x7fé", "a@\x00é", "é", "@é", "a@é.-b", "a@b-.é", "a@[é]", b"a@\xc3\xa9\xff",
    b"a@\xff\xc3\xa9", b"a@\x80", b"a@b\xc3", b"a@\xc3.\xa9", b"a@\xc1\x81", b"a@\xe0\x83\xa9",
    b"a@\xf0\x80\x83\xa9", b"a@\xf4\x90\x80\x80", b"a@\xf0\x90\x80", b"a@\xed\xbf\xbf",
    b"a@\xed\xa0\x80\xed\xb0\x80", b"a@\xc3\xa9.\xc3",
]]

# L6, L7: an address at a limit, and one beyond it, with how long the form of the first is. How many octets they have
# themselves is told in the comments.
LIMITS = [(octets(at), octets(beyond), length) for at, beyond, length in [
    # A label whose form has 63 octets: 114, 171, 118, 220, 57 and 57 octets, and 63 in ASCII.
    (domain("é" * 57), domain("é" * 58), 65), (domain("他" * 57), domain("他" * 58), 65),
    (domain("\x80" * 59), domain("\x80" * 60), 65), (domain("\U0010ffff" * 55), domain("\U0010ffff" * 56), 65),
    (domain("b" * 55 + "é"), domain("b" * 56 + "é"), 65), (domain("É" + "B" * 55), domain("É" + "B" * 56), 65),
    (domain("b" * 63), domain("b" * 64), 65), (domain("xn--" + "b" * 59), domain("xn--" + "b" * 60), 65),
    (domain("x", "é" * 57, "y"), domain("x", "é" * 58, "y"), 69),
    # An address of 94 octets, with a form of 249, and one label more; and such with 254, of 99, 873, 407 and 254 octets.
    (domain(*["é"] * 31), domain(*["é"] * 32), 249), (domain(*["é"] * 31, "b" * 4), domain(*["é"] * 31, "b" * 5), 254),
    (domain(*["\U0010ffff" * many for many in (55, 55, 55, 52)]),
     domain(*["\U0010ffff" * many for many in (55, 55, 55, 53)]), 254),
    ("a" * 62 + "@" + ".".join(["é" * 57] * 3), "a" * 63 + "@" + ".".join(["é" * 57] * 3), 254),
    ("É" * 31 + "@" + ".".join(["b" * 63] * 3), "É" * 31 + "a@" + ".".join(["b" * 63] * 3), 254),
    # L6: the local part stays as it was, 64 octets and 65.
    ("É" * 32 + "@é", "É" * 32 + "a@é", 72),
]]

# Texts that are much longer than any form, and no addresses.
LONG = [domain("é" * 20_000).encode(), domain(*["é"] * 10_000).encode(), domain("b" * 20_000).encode(),
        domain("é" * 57, "b" * 20_000).encode(), b"a@" + "é".encode() * 57 + b"\xff" * 20_000]

# W12: an address, and how it is shown.
SHOWN = [(octets(given), octets(text)) for given, text in [
    ("A@XN--BCHER-KVA.example", "a@bücher.example"), ("a@bücher.example", "a@bücher.example"),
    ("A@BÜCHER.Example", "a@bücher.example"), ("Ö@Ö", "ö@ö"), ("Bob@B.Example", "bob@b.example"),
    ("a@xn--a", "a@\x80"), ("a@xn--é", "a@xn--é"), ("a@é-é", "a@é-é"), ("a@é。é", "a@é。é"),
    ("a@xn--9ca.xn--ba.xn--dca.c", "a@é.\x81.xn--dca.c"), ("a@xn--dn32g", "a@\U0010ffff"), ("a@xn--hb9b", "a@\ud7ff"),
    ("a@xn--0y0c", "a@\ue000"), ("a@xn--AA-cja", "a@aaé"),
    # The codes of capitals, and of hyphens at the ends.
    *((text, text) for text in ("a@xn--dca", "a@xn--a-hea", "a@xn----bga", "a@xn----9fa")),
    # What decodes to nothing: no digits, cut short, surrogates, past U+10FFFF, and numbers that are larger than any.
    *((text, text) for text in ("a@xn---abc", "a@xn--z", "a@xn--b", "a@xn--a-b-z", "a@xn--ib9b", "a@xn--zy0c",
                                "a@xn--en32g", "a@xn--zzzzzzzz", "a@xn--" + "9" * 59, "a@xn--" + "z" * 59)),
    # Not at the front of a label, and no hyphens.
    ("a@b-xn--9ca", "a@b-xn--9ca"), ("a@xn-9ca", "a@xn-9ca"), ("a@xn", "a@xn"), ("xn--9ca@b", "xn--9ca@b"),
    # The local part stands as in the form, well formed or not.
    ("É.xn--9ca@é", "é.xn--9ca@é"), ("É".encode() + b"\xffA@xn--9ca", "É".encode() + b"\xffa@" + "é".encode()),
]]


class Domains:
    """What the rules say of domains, example by example, in every field and argument."""

    program = None

    def written(self, address: bytes) -> bytes | None:
        """The canonical form, as the writers write it; None where they refuse the address."""
        number, field = self.program.write_gossip(address, b"k", 500)
        if number != 0:
            self.assertEqual((number, field), (9, b""))
            return None
        form = field[len(b"Autocrypt-Gossip: addr="):-len(b"; keydata=\r\n aw==\r\n")]
        self.assertEqual(field, b"Autocrypt-Gossip: addr=" + form + b"; keydata=\r\n aw==\r\n")
        return form

    def after(self, outer: bytes, payload: bytes = b"", free: int = 3) -> tuple[int, list[Entry]]:
        """The number that a message gives with an empty table, and the entries after it."""
        number, _, table = self.program.process(bytes(free * SLOT), RECEIPT, outer, payload, TAKE)
        return number, [entry for entry in entries(table) if entry is not None]

    def everywhere(self, address: bytes, form: bytes | None) -> None:
        """The address in each field and each argument; None where it is no plain one."""
        self.as_argument(address, form)
        self.as_sender(address, form)
        self.as_recipient(address, form)
        self.as_gossip(address, form)
        self.as_stored(address, form)

    def as_argument(self, address: bytes, form: bytes | None) -> None:
        # R9: the writers, and `display`.
        self.assertEqual(self.written(address), form, address)
        number, field = self.program.write_autocrypt(address, b"k", True, 500)
        if form is None:
            self.assertEqual((number, field), (9, b""), address)
            self.assertEqual(self.program.display(address, ROOM), (9, b""), address)
        else:
            line = b"Autocrypt: addr=" + form + b"; prefer-encrypt=mutual; keydata=\r\n aw==\r\n"
            self.assertEqual((number, field), (0, line), address)
            self.assertEqual(self.program.display(address, ROOM)[0], 0, address)
        # R10: a list of recipients. L16: the others in it are hidden.
        table = table_of([Entry(A, 9, 9, b"a"), None if form is None else Entry(form, 9, 9, b"k")])
        for listed in (address, b"Bob <" + address + b">", A + b", " + address, b"g:" + address + b";, " + A):
            number, _, advice = self.program.recommend(table, listed, False, False)
            self.assertEqual((number, advice), (10, 0) if form is None else (0, 3), listed)
            keys = [self.program.target_key(table, listed, False, False, place) for place in range(2)]
            told = [table[start:start + length] for start, length in keys]
            self.assertEqual(b"k" in told, form is not None, listed)

    def as_sender(self, address: bytes, form: bytes | None) -> None:
        # R5: in From. F12: in `addr`, spelled as in From, and as the form.
        expected = (5, []) if form is None else (0, [Entry(form, 1000)])
        for sender in (address, b"Bob <" + address + b">", b"g: " + address + b";"):
            self.assertEqual(self.after(mail(sender, 1000)), expected, address)
        if form is not None:
            for sender, addr in itertools.product((address, form), repeat=2):
                self.assertEqual(self.after(mail(sender, 1000, key_field(addr, b"k", True))),
                                 (0, [Entry(form, 1000, 1000, b"k", True)]), address)
            # F13: two spellings are two valid fields.
            self.assertEqual(self.after(mail(form, 1000, key_field(address, b"k"), key_field(form, b"l"))),
                             (0, [Entry(form, 1000)]), address)
        # F6: as `addr` of somebody else it is not valid, and a field that is valid counts beside it.
        self.assertEqual(self.after(mail(A, 1000, key_field(address, b"k"), key_field(A, b"a"))),
                         (0, [Entry(A, 1000, 1000, b"a")]), address)

    def as_recipient(self, address: bytes, form: bytes | None) -> None:
        # G4: in each of the three fields. L16: with an address that is not plain the others are hidden.
        payload = gossip_field(B, b"b") + gossip_field(C, b"c")
        if form is not None:
            payload += gossip_field(form, b"k")
        for name in (b"To", b"Cc", b"Reply-To"):
            outer = mail(A, 1000, name + b": " + B + b", Bob <" + address + b">\r\nCc: " + C + b"\r\n")
            heard = [(C, b"c")] if form is None else [(B, b"b"), (C, b"c"), (form, b"k")]
            expected = [Entry(A, 1000)] + [Entry(one, gossip_timestamp=1000, gossip_key=key) for one, key in heard]
            self.assertEqual(self.after(outer, payload, 4), (0, expected), (name, address))

    def as_gossip(self, address: bytes, form: bytes | None) -> None:
        # G5: as `addr` of gossip, about a recipient whose address is spelled as here, and as the form.
        payload = gossip_field(B, b"b") + gossip_field(address, b"k")
        heard = [Entry(A, 1000), Entry(B, gossip_timestamp=1000, gossip_key=b"b")]
        if form is None:
            self.assertEqual(self.after(mail(A, 1000, b"To: " + B + b"\r\n"), payload), (0, heard), address)
            return
        heard.append(Entry(form, gossip_timestamp=1000, gossip_key=b"k"))
        for listed in (address, form):
            outer = mail(A, 1000, b"To: " + B + b", " + listed + b"\r\n")
            self.assertEqual(self.after(outer, payload), (0, heard), address)
        # R8: both spellings are one newcomer, and the last field about it stays.
        outer = mail(A, 1000, b"To: " + address + b", " + form + b"\r\n")
        payload = gossip_field(address, b"old") + gossip_field(form, b"k")
        self.assertEqual(self.after(outer, payload, 2), (0, [heard[0], heard[2]]), address)
        self.assertEqual(self.after(outer, payload, 1), (8, []), address)
        # G5: somebody else is not listed.
        self.assertEqual(self.after(mail(A, 1000, b"To: x" + form + b"\r\n"), payload), (0, heard[:1]), address)

    def as_stored(self, address: bytes, form: bytes | None) -> None:
        # T8.2: a slot holds the form, and no other spelling. T9: so it fits.
        if len(address) <= 256:
            slot = slot_of(Entry(address, 9, 9, b"k"))
            self.assertEqual(self.program.check(slot), (0, 0) if address == form else (2, 0), address)
        if form is not None:
            self.assertEqual(self.program.check(slot_of(Entry(form, 9, 9, b"k"))), (0, 0), form)

    def test_forms_L7_L8_L22(self):
        for address, form in FORMS:
            self.everywhere(address, form)
            self.everywhere(form, form)

    def test_no_forms_L6_L7_L20(self):
        for address in NO_FORM:
            self.as_argument(address, None)
            if b"," not in address and address != "é".encode():
                self.everywhere(address, None)

    def test_at_a_limit_and_beyond_it_L6_L7(self):
        for address, beyond, length in LIMITS:
            form = self.written(address)
            self.assertEqual(len(form), length, address)
            self.everywhere(address, form)
            self.everywhere(form, form)
            self.everywhere(beyond, None)

    def test_no_limit_on_the_input_L6_L7(self):
        for address in LONG:
            self.everywhere(address, None)
        # A plain address that is longer than any form.
        address = domain(*["\U0010ffff" * many for many in (55, 55, 55, 52)]).encode()
        self.assertEqual((len(address), len(self.written(address))), (873, 254))

    def test_the_samples_of_the_RFC_L22_L23_W12(self):
        """As labels where they are some: coded in lower case, and shown as they are coded."""
        labels = 0
        for letter in rfc3492.SAMPLES:
            text = "".join(map(chr, rfc3492.points(letter)))
            code = b"xn--" + rfc3492.text(letter).lower()
            address = b"a@" + text.encode()
            if letter in "DJKLMNP":
                # L21: with capitals, and so with another text in lower case; their codes stand for themselves, too.
                small = "".join(letter.lower() if letter.isascii() else letter for letter in text)
                self.assertEqual(self.written(address), b"a@" + code)
                self.assertEqual(self.program.display(b"a@" + code, ROOM), (0, b"a@" + small.encode()))
                labels += 1
            elif letter == "H":
                # 73 octets.
                self.assertIsNone(self.written(address))
            elif letter != "S":
                self.assertEqual(self.written(address), b"a@" + code)
                for given in (address, b"a@" + code, b"A@" + code.upper()):
                    self.assertEqual(self.program.display(given, ROOM), (0, address), letter)
                labels += 1
        self.assertEqual(labels, 17)

    def test_shown_W12_C20(self):
        for address, text in SHOWN:
            self.assertEqual(self.program.display(address, ROOM), (0, text), address)
            # C20: what is shown has the same form, and is shown as it is.
            self.assertEqual(self.written(text), self.written(address), address)
            self.assertEqual(self.program.display(text, ROOM), (0, text), address)

    def test_what_was_typed_is_shown_in_lower_case_C20(self):
        typed = [address.decode() for address, _, _ in LIMITS if b"xn--" not in address]
        self.assertEqual(len(typed), len(LIMITS) - 1)
        for address in typed + ["ΑΩΫ@АЯЀЏ.ÀÞ×ß", "a@É-É", "B.É@Bé。é"]:
            text = "".join(letter.lower() if letter in "ÉBΑΩΫАЯЀЏÀÞ" else letter for letter in address)
            self.assertEqual(self.program.display(address.encode(), ROOM), (0, text.encode()), address)
            self.assertEqual(self.program.display(self.written(address.encode()), ROOM), (0, text.encode()), address)

    def test_9_and_then_12_R9_R12_R34_W11(self):
        for address, text in SHOWN:
            for room in (len(text), len(text) + 1, ROOM):
                self.assertEqual(self.program.display(address, room), (0, text), address)
            for room in {0, 1, len(text) - 1}:
                self.assertEqual(self.program.display(address, room), (12, b""), address)
        for address in NO_FORM + [b"", b"a", b" a@b", b"a@b ", b"<a@b>", b"A <a@b>", b"a@b,c@d"]:
            for room in (0, 1, ROOM):
                self.assertEqual(self.program.display(address, room), (9, b""), address)

    def test_room_for_every_address_W11(self):
        address, _, _ = LIMITS[11]
        self.assertEqual(self.program.display(address, ROOM), (0, address))
        self.assertEqual(len(address), 873)
        self.assertEqual(self.program.display(address, 873), (0, address))
        self.assertEqual(self.program.display(address, 872), (12, b""))

    def test_octets_of_128_and_above_belong_to_the_domain_L12(self):
        for octet in range(128, 256):
            one = bytes([octet])
            for listed in (b"a@b" + one, b"<a@" + one + b">", A + b",a@b" + one + b"c"):
                self.assertEqual(self.program.recommend(bytes(SLOT), listed, False, False)[0], 10, listed)
        for listed in ("a@é", "é <é@é>", "é@é (é)", "\"é\" <a@é.é>", "é:a@é;", "a@é,é@é"):
            self.assertEqual(self.program.recommend(bytes(SLOT), listed.encode(), False, False)[0], 0, listed)
        for listed in ("a@é é", "a@é\"é\"", "é@é <a@é>", "a@é@é", "a@é:;", "é a@é"):
            self.assertEqual(self.program.recommend(bytes(SLOT), listed.encode(), False, False)[0], 10, listed)

    def test_stored_spellings_T8_T16(self):
        """A slot has its address in ASCII behind the `@`; the old rule is what it was."""
        for address, sound in [("a@é", False), ("a@xn--9ca", True), ("a@XN--9ca", False), ("a@xn--é", False),
                               ("a@xn--dca", True), ("a@xn----bga", True), ("é@xn--9ca", True), ("a@xn--", False)]:
            slot = slot_of(Entry(address.encode(), 1))
            self.assertEqual(self.program.check(slot), (0, 0) if sound else (2, 0), address)
            self.assertEqual(self.program.convert(slot), (0, 0, slot) if sound else (2, 0, slot), address)
        old, new = [slot_of(Entry(text.encode(), 1)) for text in ("É@xn--9ca.xn--dca", "é@xn--9ca.xn--dca")]
        self.assertEqual(self.program.check(old), (2, 0))
        self.assertEqual(self.program.convert(old), (0, 0, new))

    def test_both_spellings_in_one_message_L8(self):
        form, spellings = b"zo\xc3\xab@xn--bcher-kva.xn--e1a", ["zoë@bücher.е", "ZOË@BÜCHER.Е", "zoë@XN--BCHER-KVA.е",
                                                               "Zoë@Bücher.xn--e1a"]
        for one, other in itertools.permutations([form] + [text.encode() for text in spellings], 2):
            table = table_of([Entry(form, 9, 9, b"old", True), None])
            outer = mail(one, 1000, b"To: " + A + b", x <" + other + b">\r\n", key_field(other, b"k"))
            number, _, after = self.program.process(table, RECEIPT, outer, gossip_field(one, b"g"), TAKE)
            self.assertEqual((number, entries(after)), (0, [Entry(form, 1000, 1000, b"k", False, 1000, b"g"), None]))
            self.assertEqual(self.program.recommend(after, other, False, False), (0, 0, 3))
        # Letters that look alike are not the same: a Cyrillic one for the last label, and a Latin one.
        number, _, after = self.program.process(table, RECEIPT, mail("zoë@bücher.e".encode(), 1000), b"", UNSET)
        self.assertEqual((number, [entry.address for entry in entries(after)]),
                         (0, [form, b"zo\xc3\xab@xn--bcher-kva.e"]))
