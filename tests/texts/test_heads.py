"""The head of a file of definitions or laws lists what is in it: each name that stands there is a word of the file."""
import re
import unittest
from pathlib import Path

CRATES = Path(__file__).resolve().parents[2] / "crates"
LISTED = re.compile(r"--     (\S.*?)(?:  +\S.*)?$")
NAME = re.compile(r"[A-Za-z_◌][\w'◌-]*")


def names(text: str) -> list:
    """The names that the head of a file lists: before two blanks, parted by commas and by `..`."""
    head = text.split("\nuse ", 1)[0].splitlines()
    listed = [found[1] for line in head if (found := LISTED.match(line))]
    return [name for line in listed for name in re.split(r", | \.\. ", line) if NAME.fullmatch(name)]


def missing(text: str) -> list:
    words = set(re.findall(r"[^\s(){}\[\],;.:]+", re.sub(r"--.*", "", text)))
    return [name for name in names(text) if name not in words]


class Heads(unittest.TestCase):
    def test_heads(self):
        files = sorted(CRATES.glob("*/specs/*.antt")) + sorted(CRATES.glob("*/proofs/*.antt"))
        texts = {str(file.relative_to(CRATES)): file.read_text() for file in files}
        self.assertGreater(sum(len(names(text)) for text in texts.values()), 1000)
        self.assertEqual({file: missing(text) for file, text in texts.items() if missing(text)}, {})

    def test_rule(self):
        text = "-- About.\n--     here, gone, so-far    two\n--     one .. ◌two◌, x'    more\nuse A.{b}\n\nhere : ℕ\nso_far : ℕ\none : ℕ\n◌two◌ = one\n"
        self.assertEqual(missing(text), ["gone", "so-far", "x'"])


if __name__ == "__main__":
    unittest.main()
