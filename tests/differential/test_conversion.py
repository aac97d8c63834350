"""T16 to T20, run by the shipped library, each call compared with the independent program, table by table."""
import unittest
from collections import Counter

from against import Cases
from both import Both
import conversions
from scope import table as tables
from probe import SEED


class Conversions(conversions.Conversions, unittest.TestCase):
    program = Both()


class Tables(unittest.TestCase):
    """Answers, indexes and every octet of the tables."""

    def setUp(self):
        self.both = Both()
        self.cases = Cases(SEED)
        self.random = self.cases.random

    def test_tables(self):
        """Generated tables: groups of every size, ties, what is absent, gaps; refused ones, and such as stay."""
        answers, groups = Counter(), Counter()
        for _ in range(20_000):
            table = self.cases.conversion()
            number, _, after = self.both.convert(table)
            answers[number if number or after != table else "as it was"] += 1
            if number == 0:
                free = [bytes(tables.SLOT) == slot for slot in tables.slots(table)]
                emptied = sum(now == bytes(tables.SLOT) for now in tables.slots(after)) - sum(free)
                groups[min(emptied, 4)] += 1
        self.assertEqual(set(answers), {0, 1, 2, "as it was"})
        self.assertGreater(answers[0], 10_000)
        self.assertEqual(set(groups), {0, 1, 2, 3, 4})

    def test_each_defect_T16(self):
        """An old spelling beside each single defect of a slot, in front of it and behind it."""
        good = tables.slot_of(tables.Entry("É@x".encode(), 5, 5, b"k"))
        entry = tables.Entry("éЖ@x".encode(), 1000, 999, b"abc", True, 7, b"g")
        slot = tables.slot_of(entry)
        places = list(range(0, 48)) + [295, 296, 297, 299, 2343, 2344, 2345, 4391]
        for at in places:
            for x in {0, 1, 2, 15, 16, 65, 97, 128, 255} - {slot[at]}:
                broken = slot[:at] + bytes([x]) + slot[at + 1 :]
                for table in (broken + good, good + broken, good + bytes(tables.SLOT) + broken + broken):
                    self.both.convert(table)

    def test_each_code_point_L21_T17(self):
        """Each code point from U+0080 to U+04FF alone, beside its small letter, and beside a fault."""
        letters = [chr(point).encode() for point in range(0x80, 0x500)]
        changed = 0
        for letter in letters:
            address, other = letter + b"@x", letter.decode().lower().encode() + b"@x"
            held = [tables.Entry(address, 1, 1, b"k"), None, tables.Entry(b"\xff" + address, 2)]
            if other != address:
                held.append(tables.Entry(other, 3, gossip_timestamp=4, gossip_key=b"g"))
            table = tables.table_of(held)
            number, _, after = self.both.convert(table)
            self.assertEqual(number, 0, letter)
            changed += after != table
        # L21: 30 letters of the first range, 26 of the second, 32 and 16.
        self.assertEqual(changed, 104)

    def test_then_messages_T20(self):
        """A table is converted, and messages go on with it."""
        answers = Counter()
        for _ in range(300):
            number, _, table = self.both.convert(self.cases.old_table())
            self.assertEqual(number, 0)
            for _ in range(8):
                number, _, table = self.both.process(table, *self.cases.message())
                answers[number] += 1
        self.assertEqual(set(answers), {0, 3, 4, 5, 6, 7, 8})

    def test_lengths_R1(self):
        for length in (0, 1, tables.SLOT - 1, tables.SLOT, tables.SLOT + 1, 256 * tables.SLOT - 1, 256 * tables.SLOT,
                       256 * tables.SLOT + 1, 257 * tables.SLOT):
            for octet in (b"\0", b"\xff"):
                self.both.convert(octet * length)


if __name__ == "__main__":
    unittest.main()
