"""The kinds of faults of outgoing mail are said in the same words, under the same numbers, by SCOPE (O3), the C header,
the README and the Python package; header, package and code have the same names for them.
"""
import re
import unittest
from pathlib import Path

ROOT = Path(__file__).resolve().parents[2]


def found(pattern: str, file: str, begin: str | None = None, end: str | None = None) -> list:
    """What the lines of a file say that are such lines, or of a part of it."""
    text = (ROOT / file).read_text()
    if begin is not None:
        text = text.split(begin, 1)[1].split(end, 1)[0]
    return re.findall(pattern, text, re.MULTILINE)


class Kinds(unittest.TestCase):
    def setUp(self):
        """Each name with its number and its words, as the header has them."""
        kinds = found(r"^#define VIENGHULAC_FAULT_(\w+) (\d+) +/\* (.*) \*/$", "include/vienghulac.h")
        self.numbers = {name: int(number) for name, number, _ in kinds}
        self.words = {int(number): words for _, number, words in kinds}
        self.assertEqual(list(self.numbers.values()), list(range(1, 9)))
        self.assertEqual(len(set(self.words.values())), 8)

    def test_scope(self):
        rows = found(r"^\| (\d+) \| (.*?) \| .* \|$", "docs/SCOPE.md", "**O3**", "**O4**")
        self.assertEqual({int(number): words for number, words in rows}, self.words)

    def test_readme(self):
        rows = found(r"^\| (.*?) \| (\d+) \| .* \|$", "README.md", "## Trying a mail", "## After an upgrade")
        self.assertEqual({int(number): words for words, number in rows}, self.words)

    def test_python(self):
        file = "python/src/vienghulac/_linting.py"
        members = found(r"^    ([A-Z_]+) = (\d+)$", file, "class FaultKind", "def ")
        self.assertEqual({name: int(number) for name, number in members}, self.numbers)
        words = found(r'^    FaultKind\.(\w+): "(.*)",$', file)
        self.assertEqual({self.numbers[name]: text for name, text in words}, self.words)

    def test_code(self):
        constants = found(r"^(?:pub )?const (\w+): u32 = (\d+);", "crates/faults/src/lib.rt")
        self.assertEqual({name: int(number) for name, number in constants}, self.numbers)


if __name__ == "__main__":
    unittest.main()
