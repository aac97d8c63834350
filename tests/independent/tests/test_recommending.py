"""Page A: advice, the quick answer and target keys; and refusals 1, 2 and 10."""

import itertools
import unittest
from collections import Counter

from cases import Cases
from mails import key_field, mail
from scope.address import addresses, canonical
from scope.processing import UNSET, process
from scope.recommending import (AVAILABLE, DISABLE, DISCOURAGE, ENCRYPT, GAP_LIMIT, quick, recommend,
                                target_key)
from scope.table import SLOT, Entry, entries, slot_of, table_of

GAP = 3_024_000

FRESH = Entry(b"fresh@x", 5000, 5000, b"fresh key")
KEEN = Entry(b"keen@x", 5000, 5000, b"keen key", True, 9, b"keen gossip")
STALE = Entry(b"stale@x", 5000 + GAP + 1, 5000, b"stale key", True)
HEARD = Entry(b"heard@x", gossip_timestamp=5000, gossip_key=b"heard gossip")
SEEN = Entry(b"seen@x", 5000)
BARE = Entry(b"bare@x")

HELD = [FRESH, None, KEEN, STALE, HEARD, None, SEEN, BARE]
TABLE = table_of(HELD)


class Advice(unittest.TestCase):
    """A1 to A5."""

    def advice(self, recipients: bytes, mutual: bool = False, reply: bool = False,
               octets: bytes = TABLE) -> int:
        number, index, advice = recommend(octets, recipients, mutual, reply)
        self.assertEqual((number, index), (0, 0))
        return advice

    def test_the_numbers_of_the_advices_A1(self):
        self.assertEqual((DISABLE, DISCOURAGE, AVAILABLE, ENCRYPT), (1, 2, 3, 4))

    def test_one_recipient_A2_A4(self):
        rows = [
            # recipient, plain, mutual, reply, both
            (b"unknown@x", DISABLE, DISABLE, DISABLE, DISABLE),
            (b"seen@x", DISABLE, DISABLE, DISABLE, DISABLE),
            (b"bare@x", DISABLE, DISABLE, DISABLE, DISABLE),
            (b"heard@x", DISCOURAGE, DISCOURAGE, ENCRYPT, ENCRYPT),
            (b"stale@x", DISCOURAGE, DISCOURAGE, ENCRYPT, ENCRYPT),
            (b"fresh@x", AVAILABLE, AVAILABLE, ENCRYPT, ENCRYPT),
            (b"keen@x", AVAILABLE, ENCRYPT, ENCRYPT, ENCRYPT),
        ]
        for name, plain, mutual, reply, both in rows:
            self.assertEqual(self.advice(name), plain, name)
            self.assertEqual(self.advice(name, mutual=True), mutual, name)
            self.assertEqual(self.advice(name, reply=True), reply, name)
            self.assertEqual(self.advice(name, mutual=True, reply=True), both, name)

    def test_the_gap_A3(self):
        """C14 has two of these as proved examples: gaps of 35 days, and of one second more."""
        self.assertEqual(GAP_LIMIT, 35 * 24 * 60 * 60)
        for gap, expected in [(0, AVAILABLE), (GAP - 1, AVAILABLE), (GAP, AVAILABLE),
                              (GAP + 1, DISCOURAGE), (10 * GAP, DISCOURAGE)]:
            for timestamp in (0, 1, 1_500_000_000):
                octets = slot_of(Entry(b"a@b", timestamp + gap, timestamp, b"k"))
                self.assertEqual(self.advice(b"a@b", octets=octets), expected, gap)
                octets = slot_of(Entry(b"a@b", timestamp + gap, timestamp, b"k", True))
                self.assertEqual(self.advice(b"a@b", mutual=True, octets=octets),
                                 ENCRYPT if gap <= GAP else DISCOURAGE)
                self.assertEqual(self.advice(b"a@b", reply=True, octets=octets), ENCRYPT)

    def test_gossip_beside_a_stale_key_A2(self):
        octets = slot_of(Entry(b"a@b", GAP + 1, 0, b"k", False, GAP + 1, b"g"))
        self.assertEqual(self.advice(b"a@b", octets=octets), DISCOURAGE)
        self.assertEqual(target_key(octets, b"a@b", False, False, 0), (296, 1))

    def test_a_reply_never_lifts_disable_A4(self):
        self.assertEqual(self.advice(b"unknown@x, fresh@x", mutual=True, reply=True), DISABLE)

    def test_whole_lists_A5(self):
        rows = [
            # recipients, plain, mutual, reply
            (b"fresh@x, unknown@x", DISABLE, DISABLE, DISABLE),
            (b"seen@x, keen@x", DISABLE, DISABLE, DISABLE),
            (b"stale@x, unknown@x, keen@x", DISABLE, DISABLE, DISABLE),
            (b"keen@x, keen@x", AVAILABLE, ENCRYPT, ENCRYPT),
            (b"keen@x, fresh@x", AVAILABLE, AVAILABLE, ENCRYPT),
            (b"fresh@x, keen@x", AVAILABLE, AVAILABLE, ENCRYPT),
            (b"keen@x, stale@x", DISCOURAGE, DISCOURAGE, ENCRYPT),
            (b"fresh@x, heard@x, keen@x", DISCOURAGE, DISCOURAGE, ENCRYPT),
            (b"heard@x, stale@x", DISCOURAGE, DISCOURAGE, ENCRYPT),
            (b"fresh@x", AVAILABLE, AVAILABLE, ENCRYPT),
            (b"g: fresh@x, KEEN@X;, (c) \"n\" <fresh@X>", AVAILABLE, AVAILABLE, ENCRYPT),
        ]
        for recipients, plain, mutual, reply in rows:
            self.assertEqual(self.advice(recipients), plain, recipients)
            self.assertEqual(self.advice(recipients, mutual=True), mutual, recipients)
            self.assertEqual(self.advice(recipients, reply=True), reply, recipients)

    def test_the_lowest_advice_of_the_list_A5(self):
        names = [b"unknown@x", b"seen@x", b"heard@x", b"stale@x", b"fresh@x", b"keen@x"]
        for one in names:
            for other in names:
                for mutual, reply in [(False, False), (True, False), (False, True), (True, True)]:
                    lowest = min(self.advice(one, mutual, reply), self.advice(other, mutual, reply))
                    self.assertEqual(self.advice(one + b", " + other, mutual, reply), lowest)

    def test_slots_do_not_matter_C10(self):
        """The same entries in other slots give the same advice, the same count and the same octets."""
        other = table_of([None] + HELD[::-1])
        self.assertNotEqual(other, TABLE)
        for recipients in (b"fresh@x, keen@x", b"heard@x", b"stale@x, fresh@x", b"unknown@x, keen@x",
                           b"keen@x, stale@x, seen@x, unknown@x"):
            for mutual, reply in [(False, False), (True, False), (False, True), (True, True)]:
                self.assertEqual(self.advice(recipients, mutual, reply, other), self.advice(recipients, mutual, reply))
                self.assertEqual(quick(other, recipients, mutual, reply), quick(TABLE, recipients, mutual, reply))
            for place in range(3):
                (at, length), (start, long) = (target_key(octets, recipients, False, False, place)
                                               for octets in (TABLE, other))
                self.assertEqual(TABLE[at:at + length], other[start:start + long])

    def test_two_spellings_are_one_recipient_L8(self):
        self.assertEqual(self.advice(b"FRESH@X"), AVAILABLE)
        octets = slot_of(Entry(b"\xc3\xa9@x", 1, 1, b"k"))
        self.assertEqual(self.advice(b"\xc3\xa9@X", octets=octets), AVAILABLE)
        self.assertEqual(self.advice(b"\xc3\x89@x", octets=octets), AVAILABLE)
        self.assertEqual(self.advice("ê@x".encode(), octets=octets), DISABLE)
        self.assertEqual(self.advice(b"\xc3\x89\xff@x", octets=octets), DISABLE)
        # L21: code points that it leaves as they are.
        octets = slot_of(Entry("÷ÿς@x".encode(), 1, 1, b"k"))
        self.assertEqual(self.advice("÷ÿς@X".encode(), octets=octets), AVAILABLE)
        for other in ("×ÿς@x", "÷Ÿς@x", "÷ÿσ@x", "÷ÿΣ@x", "÷ÿ\u03a2@x"):
            self.assertEqual(self.advice(other.encode(), octets=octets), DISABLE, other)

    def test_an_old_spelling_T20(self):
        octets = slot_of(Entry("É@x".encode(), 1, 1, b"k"))
        self.assertEqual(recommend(octets, "É@x".encode(), False, False), (2, 0, 0))
        self.assertEqual(target_key(octets, "É@x".encode(), False, False, 0), (0, 0))


class Refusals(unittest.TestCase):
    """R1, R2, R10 and R31; where a list is refused there is no key (A7), and the quick answer is the refusal (A12)."""

    def refused(self, number: int, octets: bytes, recipients: bytes, index: int = 0) -> None:
        for mutual in (False, True):
            for reply in (False, True):
                self.assertEqual(recommend(octets, recipients, mutual, reply), (number, index, 0))
                # A13: with a count of 0.
                self.assertEqual(quick(octets, recipients, mutual, reply), (number, index, 0, 0))
                for place in (0, 1, 99, 100):
                    self.assertEqual(target_key(octets, recipients, mutual, reply, place), (0, 0))

    def test_1_R1(self):
        for length in (0, SLOT - 1, SLOT + 1, 257 * SLOT):
            self.refused(1, bytes(length), b"fresh@x")

    def test_2_R2(self):
        self.refused(2, TABLE + TABLE, b"fresh@x", len(HELD))
        self.refused(2, slot_of(Entry(b"A@b")), b"fresh@x", 0)

    def test_10_R10_L18_A7(self):
        for recipients in [b"", b" ", b"fresh@x,", b",", b"fresh@x;", b"Bob", b"g:;", b"g:;,h:;",
                           b"fresh@x, \"q\"@y", b"<>", b"fresh@x\r\n", b"a@b,\r\n c@d", b"(",
                           b"fresh@x " + b"(" * 17 + b")" * 17]:
            self.refused(10, TABLE, recipients)

    def test_1_to_100_addresses_R10(self):
        for count, number in [(1, 0), (2, 0), (99, 0), (100, 0), (101, 10), (200, 10)]:
            recipients = b",".join([b"fresh@x"] * count)
            if number == 0:
                self.assertEqual(recommend(TABLE, recipients, False, False), (0, 0, AVAILABLE))
            else:
                self.refused(10, TABLE, recipients)
        distinct = [b"p%d@x" % place for place in range(101)]
        self.assertEqual(recommend(TABLE, b",".join(distinct[:100]), False, False), (0, 0, DISABLE))
        self.refused(10, TABLE, b",".join(distinct))
        # Empty groups take no place.
        grouped = b"g:;," * 50 + b"g:" + b",".join([b"fresh@x"] * 100) + b";"
        self.assertEqual(recommend(TABLE, grouped, False, False), (0, 0, AVAILABLE))

    def test_no_limit_on_the_length_of_the_argument_R10_L17(self):
        recipients = b" " * 70000 + b"fresh@x"
        self.assertEqual(recommend(TABLE, recipients, False, False), (0, 0, AVAILABLE))
        self.assertEqual(target_key(TABLE, recipients, False, False, 0), (296, 9))

    def test_a_folded_argument_L19(self):
        self.refused(10, TABLE, b"fresh@x,\r\n keen@x")

    def test_the_order_of_testing_A1_R31(self):
        self.refused(1, b"", b"")
        self.refused(2, slot_of(Entry(b"A@b")), b"")
        self.refused(10, TABLE, b"")


class Quick(unittest.TestCase):
    """A12 to A14, and C21."""

    def asked(self, recipients: bytes, mutual: bool = False, reply: bool = False,
              octets: bytes = TABLE) -> tuple[int, int]:
        """The advice and the count."""
        number, index, advice, looked_up = quick(octets, recipients, mutual, reply)
        self.assertEqual((number, index), (0, 0))
        # A12: the advice is that of the full answer.
        self.assertEqual(recommend(octets, recipients, mutual, reply), (0, 0, advice))
        return advice, looked_up

    def refused(self, number: int, recipients: bytes, octets: bytes = TABLE, index: int = 0) -> None:
        self.assertEqual(quick(octets, recipients, False, False), (number, index, 0, 0), recipients)

    def test_the_examples_A13(self):
        """Where `n@x` has no entry, one that is bare, and one with last seen alone."""
        key = Entry(b"k@x", 5, 5, b"k")
        for held in ([key], [Entry(b"n@x"), None, key], [key, Entry(b"n@x", 9)]):
            octets = table_of(held)
            for recipients, advice, count in [(b"k@x, n@x, k@x, n@x", DISABLE, 2), (b"k@x, k@x", AVAILABLE, 2),
                                              (b"n@x", DISABLE, 1), (b"e:;, g: k@x, n@x;, k@x", DISABLE, 2)]:
                self.assertEqual(quick(octets, recipients, False, False), (0, 0, advice, count), recipients)
            self.assertEqual(quick(octets, b"n@x,", False, False), (10, 0, 0, 0))

    def test_one_recipient_A12_A2(self):
        for name in (b"unknown@x", b"seen@x", b"bare@x", b"heard@x", b"stale@x", b"fresh@x", b"keen@x", b"KEEN@X"):
            for mutual, reply in itertools.product((False, True), repeat=2):
                self.assertEqual(self.asked(name, mutual, reply)[1], 1, name)

    def test_nothing_but_disable_stops_A12(self):
        """Everyone in front of the first disable is looked up, whatever advice they have, and nobody behind it."""
        rest = [b"keen@x", b"fresh@x", b"stale@x", b"heard@x"]
        for order in itertools.permutations(rest):
            self.assertEqual(self.asked(b",".join(order)), (DISCOURAGE, 4))
            for place, nobody in itertools.product(range(5), (b"unknown@x", b"seen@x", b"bare@x")):
                mixed = b",".join(order[:place] + (nobody,) + order[place:])
                self.assertEqual(self.asked(mixed), (DISABLE, place + 1), mixed)

    def test_without_a_disable_the_length_A13(self):
        rows = [
            # recipients, plain, mutual, reply, count
            (b"keen@x", AVAILABLE, ENCRYPT, ENCRYPT, 1),
            (b"keen@x, KEEN@X, keen@x", AVAILABLE, ENCRYPT, ENCRYPT, 3),
            (b"fresh@x, keen@x", AVAILABLE, AVAILABLE, ENCRYPT, 2),
            (b"heard@x, keen@x", DISCOURAGE, DISCOURAGE, ENCRYPT, 2),
            (b"keen@x, fresh@x, stale@x", DISCOURAGE, DISCOURAGE, ENCRYPT, 3),
        ]
        for recipients, plain, mutual, reply, count in rows:
            self.assertEqual(self.asked(recipients), (plain, count), recipients)
            self.assertEqual(self.asked(recipients, mutual=True), (mutual, count), recipients)
            self.assertEqual(self.asked(recipients, reply=True), (reply, count), recipients)

    def test_a_reply_lifts_no_disable_A4_A12(self):
        for mutual, reply in itertools.product((False, True), repeat=2):
            self.assertEqual(self.asked(b"heard@x, unknown@x, fresh@x", mutual, reply), (DISABLE, 2))

    def test_places_A10_A13(self):
        rows = [
            # Groups where they stand, and empty ones, names and comments, which take no place.
            (b"g:;, h: (unknown@x) ;, unknown@x", 1),
            (b"e:;, g: fresh@x;, e:;", 1),
            (b"fresh@x, g: keen@x, unknown@x;, fresh@x", 3),
            (b"g: fresh@x;, h: keen@x, heard@x;, e:;, seen@x, e:;", 4),
            (b'"unknown@x, seen@x" <fresh@x>, (bare@x) A. B <KEEN@X>, bare@x', 3),
            # Equal recipients, each counted.
            (b"fresh@x, FRESH@X, fresh@x, unknown@x, unknown@x", 4),
            (b"unknown@x, unknown@x", 1),
            (b"unknown@x, fresh@x, unknown@x", 1),
            (b"fresh@x, fresh@x, g: fresh@x, fresh@x;", 4),
        ]
        for recipients, count in rows:
            self.assertEqual(self.asked(recipients)[1], count, recipients)

    def test_1_to_100_places_A13_R10(self):
        """Lists of 1, 2, 99 and 100: the first disable at each place, with keys or with more of them behind it."""
        for length in (1, 2, 99, 100):
            keyed, without = [b"fresh@x"] * length, [b"bare@x"] * length
            self.assertEqual(self.asked(b",".join(keyed)), (AVAILABLE, length))
            for place in range(length):
                for behind in (keyed, without):
                    listed = keyed[:place] + [b"seen@x"] + behind[place + 1:]
                    self.assertEqual(self.asked(b",".join(listed)), (DISABLE, place + 1))

    def test_read_to_the_end_A14(self):
        """A fault behind the first disable is refused, and so is a 101st address."""
        for front in (b"unknown@x", b"fresh@x, seen@x", b"g: fresh@x, bare@x;, keen@x"):
            self.assertEqual(self.asked(front)[0], DISABLE)
            for tail in (b",", b", ,", b";", b" Bob", b" (", b", g: fresh@x", b', "', b"\r\n", b", a@b@c", b"\x01",
                         b", fresh@x " + b"(" * 17 + b")" * 17):
                self.refused(10, front + tail)
        for first in (b"unknown@x", b"fresh@x"):
            hundred = first + b", unknown@x" * 99
            self.assertEqual(self.asked(hundred)[0], DISABLE)
            self.refused(10, hundred + b", fresh@x")

    def test_the_order_of_testing_A12_R31(self):
        """The table comes first, whatever the list has."""
        for recipients in (b"fresh@x", b"unknown@x", b"unknown@x,", b""):
            self.refused(1, recipients, TABLE[:-1])
            self.refused(2, recipients, TABLE + TABLE, len(HELD))
            self.refused(2, recipients, slot_of(Entry(b"A@b")) + TABLE, 0)

    def test_who_stands_behind_the_first_disable_C21(self):
        """Tables that differ only in what they hold of those behind it, or of people who are not in the list."""
        front, recipients = [KEEN, HEARD, SEEN], b"keen@x, heard@x, seen@x, fresh@x, other@x"
        for behind in ([], [FRESH], [Entry(b"fresh@x")], [FRESH, Entry(b"other@x", 3, 3, b"k")], [STALE, None]):
            for mutual, reply in itertools.product((False, True), repeat=2):
                self.assertEqual(self.asked(recipients, mutual, reply, table_of(behind + front)), (DISABLE, 3))

    def test_who_stands_in_front_of_it_C21(self):
        """What the table holds of each of those that are looked up does matter."""
        recipients = b"keen@x, heard@x, seen@x, fresh@x"
        for entry, answer in [(Entry(b"keen@x"), (DISABLE, 1)), (Entry(b"heard@x"), (DISABLE, 2)),
                              (Entry(b"seen@x", 9, 9, b"k"), (DISCOURAGE, 4))]:
            held = [entry] + [one for one in (KEEN, HEARD, SEEN, FRESH) if one.address != entry.address]
            self.assertEqual(self.asked(recipients, octets=table_of(held)), answer)

    def first_disable(self, octets: bytes, recipients: bytes) -> tuple[bool, int]:
        """Whether someone has disable, and the count, by the addresses that have a key (A2)."""
        keyed = {entry.address for entry in entries(octets) if entry and (entry.direct_key or entry.gossip_key)}
        names = [canonical(name) for name in addresses(recipients)]
        without = [place for place, name in enumerate(names, 1) if name not in keyed]
        return without != [], min(without, default=len(names))

    def test_the_full_answer_and_the_count_A12_A13_C21(self):
        """10,000 cases: the answer is the full one, and the count is the place of the first one without a key."""
        cases = Cases(20171107)
        answers, counts = Counter(), Counter()
        for _ in range(10_000):
            call = cases.quick()
            number, index, advice, looked_up = quick(*call)
            self.assertEqual((number, index, advice), recommend(*call), call[1:])
            answers[number, advice] += 1
            if number != 0:
                self.assertEqual(looked_up, 0)
                continue
            self.assertEqual((advice == DISABLE, looked_up), self.first_disable(*call[:2]), call[1:])
            counts[looked_up] += 1
        self.assertEqual(set(answers), {(1, 0), (2, 0), (10, 0), (0, 1), (0, 2), (0, 3), (0, 4)})
        self.assertGreater(min(answers.values()), 100, answers)
        self.assertLessEqual({1, 2, 3, 4, 5, 6, 99, 100}, set(counts))
        self.assertGreater(len(counts), 40)


class TargetKeys(unittest.TestCase):
    """A6 to A11."""

    def key(self, recipients: bytes, place: int) -> bytes:
        start, length = target_key(TABLE, recipients, False, False, place)
        # A9: mutual and reply do not change the key.
        for mutual in (False, True):
            for reply in (False, True):
                self.assertEqual(target_key(TABLE, recipients, mutual, reply, place), (start, length))
        return TABLE[start:start + length]

    def test_the_part_of_the_table_A6(self):
        self.assertEqual(target_key(TABLE, b"fresh@x", False, False, 0), (296, 9))
        self.assertEqual(target_key(TABLE, b"KEEN@x", True, True, 0), (2 * SLOT + 296, 8))
        self.assertEqual(target_key(TABLE, b"heard@x", False, False, 0), (4 * SLOT + 2344, 12))

    def test_direct_before_gossip_A2(self):
        self.assertEqual(self.key(b"keen@x", 0), b"keen key")
        self.assertEqual(self.key(b"heard@x", 0), b"heard gossip")
        self.assertEqual(self.key(b"stale@x", 0), b"stale key")

    def test_without_a_key_A7(self):
        for name in (b"unknown@x", b"seen@x", b"bare@x"):
            self.assertEqual(target_key(TABLE, name, False, False, 0), (0, 0))

    def test_the_list_is_disable_because_of_another_A8(self):
        self.assertEqual(recommend(TABLE, b"unknown@x, fresh@x", False, False), (0, 0, DISABLE))
        self.assertEqual(self.key(b"unknown@x, fresh@x", 0), b"")
        self.assertEqual(self.key(b"unknown@x, fresh@x", 1), b"fresh key")

    def test_preference_and_reply_do_not_matter_A9(self):
        for name in (b"fresh@x", b"keen@x", b"stale@x", b"heard@x", b"seen@x", b"unknown@x"):
            answers = {target_key(TABLE, name, mutual, reply, 0) for mutual in (False, True) for reply in (False, True)}
            self.assertEqual(len(answers), 1, name)

    def test_a_part_is_no_copy_A11(self):
        """A part leads into the table: to the same octets after a refused call, to what was written after another."""
        held = slot_of(Entry(b"a@x", 5, 5, b"old"))
        start, length = target_key(held, b"a@x", False, False, 0)
        for outer, number, octets in [(b"no field", 4, b"old"), (mail(b"b@x", 9), 8, b"old"),
                                      (mail(b"a@x", 9, key_field(b"a@x", b"new")), 0, b"new")]:
            answer, _, after = process(held, 9, outer, b"", UNSET)
            self.assertEqual(answer, number)
            self.assertEqual(after[start:start + length], octets)

    def test_places_count_addresses_A10(self):
        recipients = b"h:;, fresh@x, g: keen@x, heard@x;, h:;, fresh@x"
        self.assertEqual([self.key(recipients, place) for place in range(5)],
                         [b"fresh key", b"keen key", b"heard gossip", b"fresh key", b""])
        self.assertEqual(target_key(TABLE, recipients, False, False, 0),
                         target_key(TABLE, recipients, False, False, 3))

    def test_past_the_list_A7(self):
        for place in (1, 2, 100, 255, 256, 1 << 32, (1 << 64) - 1):
            self.assertEqual(target_key(TABLE, b"fresh@x", False, False, place), (0, 0))
        hundred = b",".join([b"fresh@x"] * 100)
        self.assertEqual(target_key(TABLE, hundred, False, False, 99), (296, 9))
        self.assertEqual(target_key(TABLE, hundred, False, False, 100), (0, 0))

    def test_the_largest_key_in_the_last_slot_A6(self):
        octets = bytes(255 * SLOT) + slot_of(Entry(b"a@b", 1, 1, b"k" * 2048, False, 2, b"g" * 2048))
        self.assertEqual(target_key(octets, b"a@b", False, False, 0), (255 * SLOT + 296, 2048))
        octets = bytes(255 * SLOT) + slot_of(Entry(b"a@b", gossip_timestamp=2, gossip_key=b"g" * 2048))
        self.assertEqual(target_key(octets, b"a@b", False, False, 0), (255 * SLOT + 2344, 2048))


if __name__ == "__main__":
    unittest.main()
