"""Numbers that a text repeats: those of the C header are those of the definitions."""
import re
import unittest
from pathlib import Path

ROOT = Path(__file__).resolve().parents[2]


def macro(name: str) -> int:
    """The number of a macro of the C header."""
    return only(r"^#define %s (\d+)$" % name, "include/vienghulac.h")


def defined(name: str, file: str) -> int:
    """The number that a definition is, below crates/."""
    return only(r"^%s = (\d+)$" % name, f"crates/{file}")


def only(pattern: str, file: str) -> int:
    found = re.findall(pattern, (ROOT / file).read_text(), re.MULTILINE)
    if len(found) != 1:
        raise AssertionError(f"{len(found)} lines of {file} are {pattern}")
    return int(found[0])


class Header(unittest.TestCase):
    def test_slot(self):
        self.assertEqual(macro("VIENGHULAC_SLOT"), defined("slot_length", "slots/specs/Slot.antt"))

    def test_slots(self):
        self.assertEqual(macro("VIENGHULAC_SLOTS"), defined("most_slots", "table/specs/Table.antt"))

    def test_numbers(self):
        self.assertEqual(macro("VIENGHULAC_NUMBERS"), defined("shown_count", "entry/specs/Shown.antt"))

    def test_field(self):
        self.assertEqual(macro("VIENGHULAC_FIELD"), defined("field_room", "write/specs/Writing.antt"))

    def test_display(self):
        self.assertEqual(macro("VIENGHULAC_DISPLAY"), defined("display_room", "display/specs/Displaying.antt"))

    def test_faults(self):
        self.assertEqual(macro("VIENGHULAC_FAULTS"), defined("fault_room", "lint/specs/Linting.antt"))


if __name__ == "__main__":
    unittest.main()
