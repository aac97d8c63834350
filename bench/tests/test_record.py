"""A run is recorded under its kind of machine, and leaves that of the other kind."""
import sys
import unittest
from pathlib import Path

sys.path.insert(0, str(Path(__file__).resolve().parents[1]))

from run import BENCH, recorded  # noqa: E402


class Recorded(unittest.TestCase):
    def test_both_kinds(self):
        once = recorded("# Head\n\nText.\n", "x86_64", "first")
        both = recorded(once, "aarch64", "other")
        again = recorded(both, "x86_64", "second")
        self.assertTrue(once.startswith("# Head\n\nText.\n"))
        self.assertEqual([word in both for word in ("first", "other")], [True, True])
        self.assertEqual([word in again for word in ("first", "second", "other")], [False, True, True])
        self.assertEqual(again.count("### "), 2)

    def test_the_readme_has_such_a_run(self):
        """The marks by which a run is found again stand there, each once."""
        text = (BENCH / "README.md").read_text()
        self.assertEqual(text.count("<!-- last run: x86_64 -->\n"), 1)
        self.assertEqual(text.count("<!-- end of the last run: x86_64 -->\n"), 1)


if __name__ == "__main__":
    unittest.main()
