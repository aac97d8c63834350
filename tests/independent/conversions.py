"""T16 to T20 and C19 run: tables of the old canonical form, what `convert` makes of them, and what others say before.

The class is mixed into test cases, which name the `program`: whatever has the calls of `scope.calls`.
"""

import itertools
from dataclasses import replace

from mails import A, B, RECEIPT, key_field, mail
from scope.processing import UNSET
from scope.table import NUMBERS, SLOT, SLOTS_LIMIT, TIME_LIMIT, Entry, entries, slot_of, table_of


def octets(*texts: str) -> list[bytes]:
    return [text.encode() for text in texts]


# L8: an address, and its canonical form. The first ones had to be converted, the others are as they were.
FORMS = [octets("zoË@x", "zoë@x"), octets("ÀÞ×ß@x", "àþ×ß@x"), octets("ΑΩΫ@x", "αωϋ@x"), octets("АЯЀЏ@x", "аяѐџ@x"),
         octets("É.é@x-y.z", "é.é@x-y.z"), octets("É@xn--9ca.xn--dca", "é@xn--9ca.xn--dca")]
SAME = [b"a@b", b"a@xn--9ca", b"a@xn--dca", b"a@xn----bga", b"a@xn--zzzzzzzz",
        *octets("é@x", "Ā@x", "×@x", "÷@x", "ẞ@x", "Ÿ@x", "Ά@x", "\u03a2@x", "Ѡ@x"), "Ö.".encode() + b"\xffa@x",
        "É".encode() + b"\xed\xa0\x80@x", "É".encode() + b"\xc1\x81@x", b"\xf4\x90\x80\x80" + "É@x".encode()]

# One form, and spellings of it without an ASCII capital.
FORM, ONE, TWO, THREE = octets("éжω@x", "Éжω@x", "éЖω@x", "éжΩ@x")

# What a slot may hold beside its address.
FULL = Entry(b"", 2000, 1000, b"direct", True, 3000, b"gossip")


class Conversions:
    """What the rules say of `convert`, example by example."""

    program = None

    def after(self, held: list[Entry | None]) -> list[Entry | None]:
        """The entries after a conversion that is not refused."""
        number, index, table = self.program.convert(table_of(held))
        self.assertEqual((number, index, len(table)), (0, 0, len(held) * SLOT))
        # C19: the table is sound.
        self.assertEqual(self.program.check(table), (0, 0))
        # T19: and to convert it again changes nothing.
        self.assertEqual(self.program.convert(table), (0, 0, table))
        found = entries(table)
        # No octet stands there that is not the entries'.
        self.assertEqual(table_of(found), table)
        return found

    def test_each_form_T17_L8(self):
        for given, form in FORMS:
            for entry in (Entry(given), replace(FULL, address=given), Entry(given, 0, 0, b"k" * 2048)):
                self.assertEqual(self.after([entry]), [replace(entry, address=form)])
                self.assertEqual(self.after([None, entry, None]), [None, replace(entry, address=form), None])

    def test_what_is_canonical_stays_T19_L21(self):
        held = [replace(FULL, address=address) for address in SAME]
        table = table_of([None] + held + [None])
        self.assertEqual(self.program.check(table), (0, 0))
        self.assertEqual(self.program.convert(table), (0, 0, table))
        for free in (bytes(SLOT), bytes(SLOTS_LIMIT * SLOT)):
            self.assertEqual(self.program.convert(free), (0, 0, free))

    def test_near_misses_are_no_group_T17_L21(self):
        pairs = [octets("×é@x", "÷é@x"), octets("ÿ@x", "Ÿ@x"), octets("ß@x", "ẞ@x"), octets("ά@x", "Ά@x"),
                 octets("σ@x", "ς@x"), ["é".encode() + b"\xff@x", "É".encode() + b"\xff@x"],
                 octets("é@x", "e\u0301@x"), octets("é@x", "é@y")]
        for one, other in pairs:
            held = [Entry(one, 1, 1, b"one"), Entry(other, 2, 2, b"two")]
            self.assertEqual(self.after(held), held)
            self.assertEqual(self.after(held[::-1]), held[::-1])

    def test_two_T17_T18(self):
        held = [Entry(ONE, 2000, 500, b"older", True), Entry(FORM, 1000, 1000, b"younger", False, 5, b"gossip")]
        merged = Entry(FORM, 2000, 1000, b"younger", False, 5, b"gossip")
        self.assertEqual(self.after(held), [merged, None])
        self.assertEqual(self.after(held[::-1]), [merged, None])

    def test_three_T17_T18(self):
        # Last seen, direct half and gossip half come from three slots, whichever of them is the lowest.
        held = [Entry(ONE, 3000), Entry(TWO, 1000, 900, b"direct", True, 7, b"old"),
                Entry(THREE, 500, 400, b"old", False, 8, b"gossip")]
        merged = Entry(FORM, 3000, 900, b"direct", True, 8, b"gossip")
        for order in itertools.permutations(held):
            self.assertEqual(self.after(list(order)), [merged, None, None])

    def test_each_group_of_three_T18(self):
        """Each half absent, at 0 or at 1 in each of three slots: the largest, of equal ones the lowest slot's."""
        times = list(itertools.product((None, 0, 1), repeat=3))
        for direct, gossip in itertools.product(times, repeat=2):
            held = []
            for place, address in enumerate((TWO, FORM, ONE)):
                entry = Entry(address)
                if direct[place] is not None:
                    entry.last_seen = entry.autocrypt_timestamp = direct[place]
                    entry.direct_key, entry.mutual = b"d%d" % place, place == 1
                if gossip[place] is not None:
                    entry.gossip_timestamp, entry.gossip_key = gossip[place], b"g%d" % place
                held.append(entry)
            merged = Entry(FORM)
            if direct != (None, None, None):
                place = min(place for place in range(3) if direct[place] == (1 if 1 in direct else 0))
                merged = replace(held[place], address=FORM, gossip_timestamp=None, gossip_key=None)
            if gossip != (None, None, None):
                place = min(place for place in range(3) if gossip[place] == (1 if 1 in gossip else 0))
                merged = replace(merged, gossip_timestamp=gossip[place], gossip_key=b"g%d" % place)
            self.assertEqual(self.program.convert(table_of(held)), (0, 0, table_of([merged, None, None])))

    def test_ties_T18(self):
        # The whole half of the lowest slot: key and preference, and the gossip key.
        held = [Entry(ONE, 9, 5, b"a", True, 7, b"x"), Entry(FORM, 9, 5, b"b", False, 7, b"y"),
                Entry(TWO, 9, 5, b"c", True, 7, b"z")]
        for order in itertools.permutations(held):
            self.assertEqual(self.after(list(order)), [replace(order[0], address=FORM), None, None])

    def test_absent_halves_T18(self):
        bare, seen = Entry(ONE), Entry(TWO, 5)
        self.assertEqual(self.after([bare, seen]), [Entry(FORM, 5), None])
        self.assertEqual(self.after([seen, bare]), [Entry(FORM, 5), None])
        self.assertEqual(self.after([bare, Entry(TWO)]), [Entry(FORM), None])
        for half in (Entry(FORM, 9, 9, b"k", True), Entry(FORM, gossip_timestamp=9, gossip_key=b"g")):
            self.assertEqual(self.after([bare, half]), [half, None])
            self.assertEqual(self.after([replace(half, address=ONE), Entry(FORM)]), [half, None])

    def test_time_0_against_an_absent_one_T6_T18(self):
        zero = Entry(TWO, 0, 0, b"k", False, 0, b"g")
        for other in (Entry(ONE), Entry(FORM)):
            for held in ([zero, other], [other, zero]):
                self.assertEqual(self.after(held), [replace(zero, address=FORM), None])
        # Last seen at 0 alone; and a half at 0 below one at 1.
        self.assertEqual(self.after([Entry(ONE), Entry(FORM, 0)]), [Entry(FORM, 0), None])
        self.assertEqual(self.after([zero, Entry(FORM, 1, 1, b"later", True, 1, b"too")]),
                         [Entry(FORM, 1, 1, b"later", True, 1, b"too"), None])

    def test_the_largest_times_T18(self):
        late = Entry(TWO, TIME_LIMIT, TIME_LIMIT, b"k", False, TIME_LIMIT, b"g")
        early = Entry(ONE, TIME_LIMIT - 1, 255, b"l", True, TIME_LIMIT - 1, b"h")
        for held in ([late, early], [early, late]):
            self.assertEqual(self.after(held), [replace(late, address=FORM), None])

    def test_times_are_numbers_and_not_octets_T2_T18(self):
        for larger, smaller in ((256, 255), (0x1_0000, 0xFFFF), (1 << 32, (1 << 32) - 1), (0x0201, 0x0102)):
            one, two = [Entry(address, time, time, b"%d" % time, False, time, b"%d" % time)
                        for address, time in ((ONE, larger), (TWO, smaller))]
            for held in ([one, two], [two, one]):
                self.assertEqual(self.after(held), [replace(one, address=FORM), None])

    def test_a_half_is_taken_whole_T18(self):
        # The preference goes with the key, and last seen with neither.
        self.assertEqual(self.after([Entry(ONE, 9, 1, b"k", True), Entry(TWO, 5, 5, b"l")]),
                         [Entry(FORM, 9, 5, b"l"), None])
        self.assertEqual(self.after([Entry(ONE, 9, 1, b"k"), Entry(TWO, 5, 5, b"l", True)]),
                         [Entry(FORM, 9, 5, b"l", True), None])
        # A short key where a long one was, and a long one where a short one was.
        for old, new in itertools.product((1, 57, 2048), repeat=2):
            held = [Entry(ONE, 1, 1, b"k" * old, True, 1, b"g" * old),
                    Entry(TWO, 2, 2, b"l" * new, False, 2, b"h" * new)]
            self.assertEqual(self.after(held), [replace(held[1], address=FORM), None])

    def test_the_lowest_slot_whatever_its_spelling_T17(self):
        for order in itertools.permutations((FORM, ONE, TWO, THREE)):
            held = [Entry(address, place) for place, address in enumerate(order)]
            self.assertEqual(self.after(held), [Entry(FORM, 3), None, None, None])

    def test_gaps_and_others_stay_T17(self):
        others = [Entry(A, 1, 1, b"k", True), Entry("É".encode() + b"\xff@x", 2), Entry(b"c@d")]
        held = [None, others[0], Entry(TWO, 5), None, others[1], Entry(FORM, 7), None, others[2], None]
        self.assertEqual(self.after(held),
                         [None, others[0], Entry(FORM, 7), None, others[1], None, None, others[2], None])

    def test_groups_between_one_another_T17(self):
        other = "дÿ@x".encode()
        held = [Entry("Дÿ@x".encode(), 1), Entry(ONE, 9), Entry(other, 5), None, Entry(TWO, 3, 3, b"k"),
                Entry("Ж@y".encode(), 4)]
        self.assertEqual(self.after(held), [Entry(other, 5), Entry(FORM, 9, 3, b"k"), None, None, None,
                                            Entry("ж@y".encode(), 4)])

    def test_a_whole_table_of_one_group_T1_T17(self):
        letters = [(small, small.upper()) for small in "àáâãäåæç"]
        spellings = ["".join(spelling) + "@x" for spelling in itertools.product(*letters)]
        held = [Entry(spelling.encode(), place) for place, spelling in enumerate(spellings[::-1])]
        self.assertEqual(len(held), SLOTS_LIMIT)
        self.assertEqual(self.after(held), [Entry(spellings[0].encode(), 255)] + [None] * 255)
        self.assertEqual(self.program.check(table_of(held)), (2, 0))

    def test_1_R1_T16(self):
        for length in (0, 1, SLOT - 1, SLOT + 1, 256 * SLOT - 1, 256 * SLOT + 1, 257 * SLOT):
            for octet in (b"\0", b"\xff"):
                self.assertEqual(self.program.convert(octet * length), (1, 0, octet * length))
        cut = table_of([Entry(ONE, 1), Entry(FORM, 2)])[:-1]
        self.assertEqual(self.program.convert(cut), (1, 0, cut))

    def test_2_by_the_old_rule_R2_R32_T16(self):
        """Refused, and the table is as it was, although slots in front and behind could be converted."""
        good, group = slot_of(Entry(A)), [slot_of(Entry(ONE, 1)), slot_of(Entry(FORM, 2))]
        for bad in (slot_of(Entry(b"A@b")), slot_of(Entry("éЖΩ@X".encode())), slot_of(Entry("éЖA@x".encode())),
                    slot_of(Entry(b"\xffA@x")), slot_of(Entry("a@é".encode())), slot_of(Entry(b"a")),
                    slot_of(Entry("É@bücher".encode())), slot_of(Entry("É@XN--9ca".encode())),
                    slot_of(Entry(b"a@\xff")), slot_of(Entry(b"a@" + b"b" * 64)),
                    slot_of(Entry(b"a" * 63 + b"@" + b".".join([b"b" * 63] * 3))),
                    slot_of(Entry(TWO, 1, 2, b"k")), slot_of(Entry(TWO, TIME_LIMIT + 1)),
                    slot_of(Entry(TWO))[:-1] + b"\1", b"\0\0" + slot_of(Entry(TWO))[2:], bytes(SLOT - 1) + b"\1",
                    b"\xff" * SLOT, group[0], group[1], good):
            for slots in ([good, *group, bad], [good, *group, bad, bad]):
                table = b"".join(slots)
                self.assertEqual(self.program.convert(table), (2, 3, table))
            table = b"".join([good, *group, bytes(SLOT), bad, bytes(SLOT)])
            self.assertEqual(self.program.convert(table), (2, 4, table))
        # T16: two spellings of one form are no fault, and one spelling twice is.
        self.assertEqual(self.after([Entry(ONE), Entry(TWO)]), [Entry(FORM), None])
        twice = table_of([Entry(ONE), Entry(TWO), Entry(ONE)])
        self.assertEqual(self.program.convert(twice), (2, 2, twice))

    def test_every_other_call_before_and_after_T20(self):
        table = table_of([Entry(A, 5), None, Entry(ONE, 1000, 1000, b"k"), Entry(FORM, 900, 900, b"old")])
        outer = mail(TWO, 2000, key_field(THREE, b"new", True))
        self.assertEqual(self.program.check(table), (2, 2))
        self.assertEqual(self.program.entry_numbers(table, 0, NUMBERS), (2, 2, None))
        self.assertEqual(self.program.process(table, RECEIPT, outer, b"", UNSET), (2, 2, table))
        self.assertEqual(self.program.recommend(table, ONE, True, False), (2, 2, 0))
        self.assertEqual(self.program.target_key(table, ONE, True, False, 0), (0, 0))
        _, _, table = self.program.convert(table)
        self.assertEqual(self.program.check(table), (0, 0))
        self.assertEqual(self.program.entry_numbers(table, 2, NUMBERS)[2][:3], [1, 3, 1000])
        for spelling in (FORM, ONE, TWO, THREE, "ÉЖΩ@X".encode()):
            self.assertEqual(self.program.recommend(table, spelling, True, False), (0, 0, 3))
            start, length = self.program.target_key(table, spelling, True, False, 0)
            self.assertEqual(table[start:start + length], b"k")
        number, _, table = self.program.process(table, RECEIPT, outer, b"", UNSET)
        self.assertEqual((number, entries(table)),
                         (0, [Entry(A, 5), None, Entry(FORM, 2000, 2000, b"new", True), None]))

    def test_an_emptied_slot_serves_a_newcomer_U4_T17(self):
        _, _, table = self.program.convert(table_of([Entry(ONE, 1, 1, b"k" * 2048), replace(FULL, address=TWO)]))
        number, _, table = self.program.process(table, RECEIPT, mail(B, 1000), b"", UNSET)
        self.assertEqual((number, entries(table)), (0, [replace(FULL, address=FORM), Entry(B, 1000)]))
