"""W7 to W10: crate printout and the listing program against the independent program."""
import subprocess
import unittest
from pathlib import Path

from against import Cases
from scope import conversion, listing, table as tables
from probe import ROOT, SEED, Probe

SLOT = tables.SLOT
ROOM = 14 * 369  # printout::ROOM
LIMIT = tables.TIME_LIMIT


class Printout(unittest.TestCase):
    def setUp(self):
        self.probe = Probe()
        self.cases = Cases(SEED)
        self.random = self.cases.random
        self.before = self.random.randbytes(ROOM)

    def same(self, given: bytes) -> bytes:
        """The text opens the buffer, and what is behind it is as it was."""
        expected = listing.listing(given)
        after = expected + self.before[len(expected) :]
        self.assertEqual(self.probe.printout(given, self.before), (len(expected), after))
        return expected

    def same_entry(self, *parts) -> None:
        self.assertEqual(self.same(tables.slot_of(tables.Entry(b"a@b", *parts)))[:4], b"a@b ")

    def test_inputs(self):
        seen = set()
        for _ in range(2_000):
            printed = self.same(self.cases.listing_input())
            seen.add(printed if printed.startswith(b"refused") else b"lines")
        self.assertEqual(seen, {b"lines", b"refused 1\n", b"refused 2\n"})

    def test_sizes_W7(self):
        """Tables of each size: sound, with a broken slot, and of a length that is not that of whole slots."""
        for size in range(1, 16):
            for _ in range(10):
                held = [self.cases.entry(b"q%d@q" % i) if self.cases.chance(0.7) else None for i in range(size)]
                table = tables.table_of(held)
                self.assertEqual(self.same(table) == b"refused 1\n", size == 15)
                at = self.random.randrange(size) * SLOT
                self.same(table[:at] + self.cases.broken_slot() + table[at + SLOT :])
                for odd in (table[:-1], table + b"\0", table[: self.random.randrange(len(table))]):
                    self.same(odd)

    def test_numbers_W9(self):
        """Numbers of each count of digits."""
        for time in [0, LIMIT] + [x for k in range(1, 12) for x in (10**k - 1, 10**k, 10**k + 1)]:
            self.same_entry(time)
            self.same_entry(LIMIT, time, b"k", self.cases.chance(0.5))
            self.same_entry(None, None, None, False, time, b"k")
        for length in (1, 9, 10, 11, 99, 100, 999, 1000, 2047, 2048):
            self.same_entry(5, 5, b"k" * length, True, 7, b"g")
            self.same_entry(5, 5, b"k", False, 7, b"g" * length)

    def test_longest_W8(self):
        """Fourteen of the longest lines."""
        domain = b".".join([b"d" * 63, b"d" * 63, b"d" * 61])
        addresses = [b"%02d" % i + b"l" * 62 + b"@" + domain for i in range(14)]
        held = [tables.Entry(a, LIMIT, LIMIT, b"k" * 2048, True, LIMIT, b"g" * 2048) for a in addresses]
        self.assertEqual(len(self.same(tables.table_of(held))), 14 * (254 + 3 * 12 + 2 * 4 + 6 + 7))


def program(name: str) -> Path:
    """A program of the repository, as `rt ci` leaves it."""
    return ROOT / "crates" / name / "out" / name


class Program(unittest.TestCase):
    def test_program(self):
        cases = Cases(SEED)
        command = program("listing")
        self.assertTrue(command.exists(), "rt ci builds the programs")
        answers = set()
        for _ in range(400):
            given = cases.listing_input()
            expected = listing.listing(given)
            run = subprocess.run(command, input=given, capture_output=True, check=True)
            self.assertEqual(run.stdout, expected)
            answers.add(expected[:9] if expected.startswith(b"refused") else b"")
        self.assertEqual(answers, {b"", b"refused 1", b"refused 2"})

    def test_the_stored_table_in_an_old_spelling_T20(self):
        # the table that the crate's own run lists, one name with a capital as before change 2; converted it is that table again
        stored = ROOT / "crates" / "listing"
        given, expected = (stored / "stdin").read_bytes(), (stored / "stdout").read_bytes()
        old = given.replace("dörte@".encode(), "dÖrte@".encode())
        self.assertNotEqual(old, given)
        self.assertEqual(tables.check(old)[0], 2)
        self.assertEqual(self.printed(old), b"refused 2\n")
        self.assertEqual(conversion.convert(old), (0, 0, given))
        self.assertEqual(self.printed(given), expected)

    @staticmethod
    def printed(table: bytes) -> bytes:
        return subprocess.run(program("listing"), input=table, capture_output=True, check=True).stdout


if __name__ == "__main__":
    unittest.main()
