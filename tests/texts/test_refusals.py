"""Refusals are said in the same words, under the same numbers, by the definitions, the C header, the README and the Python
package. Behind a `;` the header may say more.
"""
import ast
import re
import unittest
from pathlib import Path

ROOT = Path(__file__).resolve().parents[2]


def rows(pattern: str, file: str) -> dict:
    """The number and the words of each line that is such a row; a number that stands twice fails."""
    found = re.findall(pattern, (ROOT / file).read_text(), re.MULTILINE)
    words = {int(number): text for number, text in found}
    if len(words) != len(found):
        raise AssertionError(f"a number stands twice in {file}")
    return words


class Words(unittest.TestCase):
    def setUp(self):
        """Each number with its words, as the definitions have them."""
        text = (ROOT / "crates/refusals/specs/Refusals.antt").read_text()
        numbers = dict(re.findall(r"^number_of (.+) = (\d+)$", text, re.MULTILINE))
        words = dict(re.findall(r'^words_of (.+) = "(.*)"$', text, re.MULTILINE))
        self.assertEqual(list(numbers), list(words))
        self.defined = {int(numbers[name]): words[name] for name in numbers}
        self.assertEqual(list(self.defined), list(range(1, len(words) + 1)))

    def test_header(self):
        self.assertEqual(self.defined, rows(r"^ \* +([1-9]\d*)   ([^;\n]*)", "include/vienghulac.h"))

    def test_readme(self):
        self.assertEqual(self.defined, rows(r"^\| (\d+) \| (.*?) \|", "README.md"))

    def test_python(self):
        source = (ROOT / "python/src/vienghulac/_refusals.py").read_text()
        stated = [node.value for node in ast.parse(source).body if isinstance(node, ast.Assign) and node.targets[0].id == "REFUSALS"]
        self.assertEqual(self.defined, ast.literal_eval(stated[0]))


if __name__ == "__main__":
    unittest.main()
