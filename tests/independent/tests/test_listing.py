"""W7 to W10: the listing program."""

import unittest

from scope.conversion import convert
from scope.listing import listing
from scope.table import SLOT, TIME_LIMIT, Entry, slot_of, table_of


class Lines(unittest.TestCase):
    def test_an_example_W9(self):
        slot = slot_of(Entry(b"bob@b.example", 2000, 1000, b"foo", True))
        self.assertEqual(listing(slot), b"bob@b.example 2000 1000 3 mutual - 0\n")

    def test_every_kind_of_entry_W8_W9(self):
        held = [
            Entry(b"a@b"),
            Entry(b"c@d", 0),
            None,
            Entry(b"e@f", 7, 0, b"k" * 2048),
            Entry(b"g@h", gossip_timestamp=0, gossip_key=b"g"),
            Entry(b"i@j", TIME_LIMIT, TIME_LIMIT, b"kk", True, TIME_LIMIT, b"g" * 2048),
            Entry(b"\xc3\xa9@k", 5, gossip_timestamp=6, gossip_key=b"gg"),
            Entry(b"\xc3\x89\xff@k"),
        ]
        self.assertEqual(listing(table_of(held)), (
            b"a@b - - 0 none - 0\n"
            b"c@d 0 - 0 none - 0\n"
            b"e@f 7 0 2048 none - 0\n"
            b"g@h - - 0 none 0 1\n"
            b"i@j 253402300799 253402300799 2 mutual 253402300799 2048\n"
            b"\xc3\xa9@k 5 - 0 none 6 2\n"
            b"\xc3\x89\xff@k - - 0 none - 0\n"))

    def test_free_slots_print_nothing_W8(self):
        self.assertEqual(listing(bytes(SLOT)), b"")
        self.assertEqual(listing(bytes(14 * SLOT)), b"")


class Refusals(unittest.TestCase):
    def test_14_and_15_slots_W7(self):
        held = [Entry(b"a%d@b" % place, place) for place in range(14)]
        expected = b"".join(b"a%d@b %d - 0 none - 0\n" % (place, place) for place in range(14))
        self.assertEqual(listing(table_of(held)), expected)
        self.assertEqual(listing(table_of(held) + bytes(1)), b"refused 1\n")
        self.assertEqual(listing(table_of(held + [None])), b"refused 1\n")
        self.assertEqual(listing(b"\xff" * (15 * SLOT)), b"refused 1\n")
        self.assertEqual(listing(bytes(256 * SLOT)), b"refused 1\n")

    def test_lengths_W7(self):
        for length in (0, 1, SLOT - 1, SLOT + 1, 14 * SLOT - 1, 14 * SLOT + 1):
            self.assertEqual(listing(bytes(length)), b"refused 1\n", length)

    def test_a_broken_slot_prints_no_index_W10(self):
        bad = slot_of(Entry(b"A@b"))
        self.assertEqual(listing(bad), b"refused 2\n")
        self.assertEqual(listing(bytes(13 * SLOT) + bad), b"refused 2\n")

    def test_an_old_spelling_T20_W7(self):
        good, old = Entry(b"a@b"), Entry("zoË@x".encode(), 1000, 1000, b"k")
        self.assertEqual(listing(slot_of(old)), b"refused 2\n")
        self.assertEqual(listing(table_of([good, None, old])), b"refused 2\n")
        # Once it is converted it is listed.
        self.assertEqual(listing(convert(table_of([good, None, old]))[2]),
                         b"a@b - - 0 none - 0\n" + "zoë@x 1000 1000 1 none - 0\n".encode())

    def test_nothing_is_printed_before_a_refusal_W10(self):
        good, bad = slot_of(Entry(b"a@b")), slot_of(Entry(b"A@b"))
        self.assertEqual(listing(good + bad), b"refused 2\n")


if __name__ == "__main__":
    unittest.main()
