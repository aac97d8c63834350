"""T16 to T20 and C19: converting a table of the old canonical form."""

import unittest
from collections import Counter

import conversions
from cases import Cases
from scope import calls
from scope.address import canonical
from scope.conversion import convert
from scope.table import SLOT, Entry, check, check_by_old_rule, entries, entry_numbers, slots, table_of


class Conversions(conversions.Conversions, unittest.TestCase):
    program = calls


def groups(held: list[Entry | None]) -> dict[bytes, list[int]]:
    """The slots of each canonical form, from the lowest on."""
    found: dict[bytes, list[int]] = {}
    for slot, entry in enumerate(held):
        if entry is not None:
            found.setdefault(canonical(entry.address), []).append(slot)
    return found


class Rules(unittest.TestCase):
    """What the rules say of every table, on tables made from a seed."""

    def setUp(self):
        self.cases = Cases(16)

    def converted(self, many: int) -> list[tuple[bytes, bytes]]:
        """Tables that are not refused, each with what it becomes."""
        found = []
        while len(found) < many:
            table = self.cases.conversion()
            number, _, after = convert(table)
            if number == 0:
                found.append((table, after))
        return found

    def test_refusals_T16_R2_R32(self):
        answers = Counter()
        for _ in range(1500):
            table = self.cases.conversion()
            number, index, after = convert(table)
            self.assertEqual((number, index), check_by_old_rule(table))
            if number != 0:
                self.assertEqual(after, table)
            # By the old rule, and not by the new one.
            answers[number, check(table)[0]] += 1
        self.assertEqual(set(answers), {(0, 0), (0, 2), (1, 1), (2, 2)})
        self.assertGreater(min(answers.values()), 40)

    def test_each_slot_T17(self):
        for table, after in self.converted(600):
            self.assertEqual(len(after), len(table))
            held, now = entries(table), entries(after)
            holders = {members[0]: form for form, members in groups(held).items()}
            for slot, entry in enumerate(now):
                self.assertEqual(None if entry is None else entry.address, holders.get(slot))
            # An entry that is alone and canonical keeps each octet.
            for form, members in groups(held).items():
                if len(members) == 1 and held[members[0]].address == form:
                    self.assertEqual(slots(after)[members[0]], slots(table)[members[0]])

    def test_each_merged_entry_T18(self):
        """Sorted from the largest on, those of lower slots first: the first one is taken."""
        seen = Counter()
        for table, after in self.converted(1200):
            held, now = entries(table), entries(after)
            for form, members in groups(held).items():
                group, merged = [held[slot] for slot in members], now[members[0]]
                last_seen = sorted((-one.last_seen for one in group if one.last_seen is not None))
                self.assertEqual(merged.last_seen, -last_seen[0] if last_seen else None)
                direct = [one for one in group if one.direct_key is not None]
                direct.sort(key=lambda one: -one.autocrypt_timestamp)
                gossip = [one for one in group if one.gossip_key is not None]
                gossip.sort(key=lambda one: -one.gossip_timestamp)
                first = direct[0] if direct else Entry(form)
                self.assertEqual((merged.autocrypt_timestamp, merged.direct_key, merged.mutual),
                                 (first.autocrypt_timestamp, first.direct_key, first.mutual))
                first = gossip[0] if gossip else Entry(form)
                self.assertEqual((merged.gossip_timestamp, merged.gossip_key),
                                 (first.gossip_timestamp, first.gossip_key))
                seen[min(len(group), 3)] += 1
        self.assertGreater(min(seen[size] for size in (1, 2, 3)), 100)

    def test_sound_tables_stay_T19(self):
        for _ in range(300):
            table = self.cases.sound_table()
            self.assertEqual(check_by_old_rule(table), (0, 0))
            self.assertEqual(convert(table), (0, 0, table))
        # So converting twice is converting once.
        for _, after in self.converted(300):
            self.assertEqual(convert(after), (0, 0, after))

    def test_before_and_after_T20_C19(self):
        unlike = 0
        for table, after in self.converted(600):
            old = [slot for slot, entry in enumerate(entries(table))
                   if entry is not None and canonical(entry.address) != entry.address]
            # The first slot whose address is not in canonical form is the one that is not sound.
            expected = (2, old[0]) if old else (0, 0)
            self.assertEqual(check(table), expected)
            self.assertEqual(entry_numbers(table, 0, 11)[:2], expected)
            self.assertEqual(check(after), (0, 0))
            unlike += old != []
        self.assertGreater(unlike, 300)

    def test_without_accents_nothing_changes_T19(self):
        names = [b"a@b", b"c.d@e-f.g", b"x+y=z@1"]
        table = table_of([Entry(name, 5, 5, b"k") for name in names] + [None])
        self.assertEqual(convert(table), (0, 0, table))
        self.assertEqual(len(table), 4 * SLOT)


if __name__ == "__main__":
    unittest.main()
