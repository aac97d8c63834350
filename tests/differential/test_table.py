"""Crates slots and table against the independent program."""
import unittest
from dataclasses import replace

from against import Cases
from library import Library
from scope import table as tables
from probe import SEED, Probe

SLOT = tables.SLOT


def defects(slot: bytes):
    """The slot with each single octet outside the keys' middles set to other values, and each pair of bits turned."""
    places = list(range(0, 48)) + [200, 293, 294, 295, 296, 297, 1000, 2342, 2343, 2344, 2345, 4000, 4390, 4391]
    for at in places:
        for x in (0, 1, 2, 8, 15, 16, 32, 65, 97, 128, 255):
            if slot[at] != x:
                yield slot[:at] + bytes([x]) + slot[at + 1 :]
    for bits in range(256):
        yield slot[:4] + bytes([bits]) + slot[5:]


class Table(unittest.TestCase):
    """T1 to T13 and T15: what is sound, and where the entry of an address is."""

    def setUp(self):
        self.probe = Probe()
        self.library = Library()
        self.cases = Cases(SEED)
        self.random = self.cases.random

    def same(self, table: bytes) -> int:
        expected = tables.check(table)
        self.assertEqual(self.library.check(table), expected)
        if expected[0] == 0:
            held = tables.entries(table)
            free = tables.free_slots(held)
            self.assertEqual(self.probe.lowest_free(table), free[0] if free else None)
            self.assertEqual(self.probe.count_free(table), len(free))
            for wanted in [entry.address for entry in held if entry][:8] + [self.cases.address(), b""]:
                index = next((i for i, entry in enumerate(held) if entry and entry.address == wanted), None)
                self.assertEqual(self.probe.find(table, wanted), index)
        return expected[0]

    def test_tables(self):
        answers = set()
        for _ in range(3_000):
            answers.add(self.same(self.cases.table()))
            answers.add(self.same(self.cases.broken_slot()))
        self.assertEqual(answers, {0, 1, 2})

    def test_each_defect_T8(self):
        """Each single defect, in a first, middle and last slot, of tables of 1, 2, 14 and 256 slots."""
        entries = [
            tables.Entry(b"alice@a.example", 1000, 1000, b"abc", True),
            tables.Entry(b"bob@b.example", 5),
            tables.Entry(b"c@d", None, None, None, False, 0, b"\0" * 2048),
            tables.Entry(b"d" * 64 + b"@e", 10, 9, b"k" * 2048, False, 10, b"g"),
        ]
        for entry in entries:
            for slot in defects(tables.slot_of(entry)):
                self.same(slot)
        for count in (2, 14, 256):
            rest = [tables.slot_of(replace(entries[1], address=b"n%d@b" % i)) for i in range(count)]
            for at in {0, count // 2, count - 1}:
                for slot in self.random.sample(list(defects(tables.slot_of(entries[0]))), 40):
                    self.same(b"".join(rest[:at] + [slot] + rest[at + 1 :]))
                # the address of another slot
                for other in {0, count // 2, count - 1} - {at}:
                    self.same(b"".join(rest[:at] + [rest[other]] + rest[at + 1 :]))

    def test_lengths_R1(self):
        for length in (0, 1, SLOT - 1, SLOT, SLOT + 1, 2 * SLOT, 256 * SLOT - 1, 256 * SLOT, 256 * SLOT + 1, 257 * SLOT):
            self.same(bytes(length))

    def test_times_T8(self):
        for seen in (0, 1, tables.TIME_LIMIT, tables.TIME_LIMIT + 1, 2**64 - 1):
            for stamp in (0, 1, tables.TIME_LIMIT, tables.TIME_LIMIT + 1, 2**64 - 1):
                self.same(tables.slot_of(tables.Entry(b"a@b", seen, stamp, b"k")))
                self.same(tables.slot_of(tables.Entry(b"a@b", seen, None, None, False, stamp, b"k")))


if __name__ == "__main__":
    unittest.main()
