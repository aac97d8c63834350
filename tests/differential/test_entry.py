"""One slot read through the shipped library, against the independent program."""
import unittest
from collections import Counter

from against import Cases
from both import Both
from scope import table as tables
from probe import SEED

SLOT, NUMBERS = tables.SLOT, tables.NUMBERS


class OneSlot(unittest.TestCase):
    """T14, with R1, R2, R12 and R32."""

    def setUp(self):
        self.both = Both()
        self.cases = Cases(SEED)

    def read(self, *call) -> tuple[int, list[int] | None]:
        """The number, and the numbers of the slot."""
        number, _, numbers = self.both.entry_numbers(*call)
        return number, numbers

    def told(self, table: bytes, slot: int, entry: tables.Entry | None):
        """The slot's numbers are those of the entry, and the parts cut out of the table are its octets."""
        _, (used, bits, seen, sent, heard, *places) = self.read(table, slot, NUMBERS)
        address, direct, gossip = [table[start : start + length] for start, length in zip(places[::2], places[1::2])]
        if entry is None:
            self.assertEqual([used, bits, seen, sent, heard, *places], [0] * NUMBERS)
            return
        self.assertEqual((used, address), (1, entry.address))
        self.assertEqual((direct, gossip), (entry.direct_key or b"", entry.gossip_key or b""))
        present = (entry.last_seen, entry.direct_key, entry.gossip_key, entry.mutual or None)
        self.assertEqual(bits, sum(1 << bit for bit, part in enumerate(present) if part is not None))
        times = (entry.last_seen, entry.autocrypt_timestamp, entry.gossip_timestamp)
        self.assertEqual((seen, sent, heard), tuple(time or 0 for time in times))

    def test_calls(self):
        """Generated calls: every refusal, slots that are used and free, and slots past the end."""
        answers = Counter()
        for _ in range(8_000):
            table, slot, room = self.cases.one_slot()
            number, numbers = self.read(table, slot, room)
            answers[number or ("used" if numbers[0] else "free" if slot < len(table) // SLOT else "past the end")] += 1
        self.assertEqual(set(answers), {1, 2, 12, "used", "free", "past the end"})

    def test_every_slot_and_room(self):
        """Each slot of sound tables and slots past the end, with each count of lent numbers; broken and cut tables."""
        for _ in range(60):
            held = self.cases.held()[:16]
            table = tables.table_of(held)
            broken = table[:5] + b"\1" + table[6:]
            for slot in [*range(len(held) + 2), (1 << 64) - 1]:
                self.told(table, slot, held[slot] if slot < len(held) else None)
                for room in range(14):
                    self.assertEqual(self.read(table, slot, room)[0], 0 if room >= NUMBERS else 12)
                    self.assertEqual(self.read(broken, slot, room)[0], 2)
                    self.assertEqual(self.read(table[:-1], slot, room)[0], 1)

    def test_longest_parts(self):
        """The first, a middle and the last slot of a table of 256, with parts as long as they may be and as short."""
        last = tables.TIME_LIMIT
        address = b"a" * 62 + b"@" + b".".join([b"b" * 63] * 3)
        long = tables.Entry(address, last, last, b"k" * 2048, True, 0, b"g" * 2048)
        short = tables.Entry(b"a@b", 0, 0, b"k", False, last, b"g")
        for at in (0, 127, 255):
            for entry in (long, short):
                held = [None] * at + [entry] + [None] * (255 - at)
                for slot in (0, 1, 126, 127, 128, 254, 255, 256):
                    self.told(tables.table_of(held), slot, held[slot] if slot < 256 else None)


if __name__ == "__main__":
    unittest.main()
