"""The tables of the bench, its lists with a disable and its outgoing mails are what its rows say of them."""
import sys
import unittest
from dataclasses import replace
from pathlib import Path

ROOT = Path(__file__).resolve().parents[2]
sys.path += [str(ROOT / "bench"), str(ROOT / "tests" / "independent")]

from messages import cases  # noqa: E402
from scope import conversion, linting, recommending, table as tables  # noqa: E402
from scope.address import canonical  # noqa: E402
from scope.recommending import DISABLE, DISCOURAGE, REFUSED  # noqa: E402


class Tables(unittest.TestCase):
    @classmethod
    def setUpClass(cls):
        rows = list(cases(few=True))
        cls.made = [(f"{group}.{number}", call, used, table) for group, number, used, call, _, table, _ in rows]
        cls.tables = {name: table for name, _, _, table in cls.made}
        cls.calls = {f"{group}.{number}": calls for group, number, *_, calls in rows}
        cls.lists = {name: [first for first, _ in calls] for name, calls in cls.calls.items()}

    def entries(self, name: str) -> list[tables.Entry]:
        return tables.entries(self.tables[name])

    def test_full_and_sound(self):
        for name, call, used, table in self.made:
            if call not in ("write", "convert-old", "lint"):
                self.assertEqual(tables.check(table), (0, 0), name)
            self.assertEqual(sum(entry is not None for entry in tables.entries(table)), used, name)

    def test_the_same_table_beyond_ascii_L8(self):
        """Every local part has letters that are not ASCII, and all else is as in the table in ASCII."""
        for name in ("check-accents.256", "check-cyrillic.256"):
            for entry, plain in zip(self.entries(name), self.entries("check.256"), strict=True):
                self.assertTrue(plain.address.isascii())
                self.assertFalse(entry.address.isascii())
                self.assertEqual(replace(entry, address=plain.address), plain)

    def test_nothing_to_convert_T19(self):
        for name, call, _, table in self.made:
            if call == "convert":
                self.assertEqual(conversion.convert(table), (0, 0, table), name)

    def freed(self, name: str) -> list[int]:
        """The slots that a conversion makes free."""
        number, _, after = conversion.convert(self.tables[name])
        self.assertEqual(number, 0)
        return [i for i, entry in enumerate(tables.entries(after)) if entry is None]

    def test_tables_of_the_old_rule_T16_T17(self):
        # Each old spelling makes the table unsound, and the first of them is named.
        self.assertEqual(tables.check(self.tables["convert-old.256"]), (2, 1))
        self.assertEqual(tables.check(self.tables["convert-last.256"]), (2, 255))
        self.assertEqual(self.freed("convert-last.256"), [])
        held = self.entries("convert-old.256")
        self.assertEqual(sum(canonical(entry.address) != entry.address for entry in held), 128)
        free = self.freed("convert-old.256")
        self.assertEqual(len(free), 32)
        # Some of them had the capital, and with others the slot had it that they were merged into.
        self.assertEqual({i % 8 for i in free}, {0, 7})

    def test_first_disable_A13(self):
        """It stands where the row says, and last where the list has a fault, which is one octet more. Otherwise a list has the
        same octets wherever it stands. The other calls are given the same lists."""
        answers = {"quick-at-1.256": (0, 0, DISABLE, 1), "quick-at-50.256": (0, 0, DISABLE, 50),
                   "quick-nowhere.256": (0, 0, DISCOURAGE, 100), "quick-refused.256": (10, 0, REFUSED, 0),
                   "grow-quick.1": (0, 0, DISABLE, 1), "grow-quick.20": (0, 0, DISABLE, 20)}
        self.assertEqual({name for name, call, _, _ in self.made if call == "quick"}, set(answers))
        for name, answer in answers.items():
            for recipients in self.lists[name]:
                self.assertEqual(recommending.quick(self.tables[name], recipients, True, False), answer, name)
            if name.startswith("quick"):
                self.assertEqual(self.lists[name.replace("quick", "recommend")], self.lists[name], name)
        refused = self.lists["quick-refused.256"]
        self.assertEqual(self.lists["target-refused.256"], refused)
        readable = [recipients[:-1] for recipients in refused]
        for recipients in readable:
            self.assertEqual(recommending.quick(self.tables["quick-refused.256"], recipients, True, False), (0, 0, DISABLE, 100))
        for name in ("quick-at-1.256", "quick-at-50.256"):
            self.assertEqual([sorted(octets) for octets in self.lists[name]], [sorted(octets) for octets in readable], name)

    def test_outgoing_mail_O3(self):
        """The mails that `process` gets with one slot have no fault. With an attribute more they have two."""
        self.assertEqual(self.calls["lint.1"], self.calls["gossip.1"])
        for name, kinds in (("lint.1", []), ("lint-faulty.1", [linting.NO_VALID, linting.UNKNOWN_ATTRIBUTE])):
            for outer, payload in self.calls[name]:
                number, faults = linting.lint(outer, payload, 3 * linting.FAULTS_LIMIT)
                self.assertEqual((number, [kind for _, _, kind in faults]), (0, kinds), name)


if __name__ == "__main__":
    unittest.main()
