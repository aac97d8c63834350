"""crates.txt lists for each crate just the libraries that its sources name: in code as `name::`, in definitions and proofs, and
in contracts, as `Rattle.name.`. `std` is always there, and never listed.
"""
import re
import unittest
from pathlib import Path

ROOT = Path(__file__).resolve().parents[2]
PARTS = ("src", "specs", "proofs")
STANDARD = "std"
NAMED = re.compile(r"\bRattle\.(\w+)\.")
CALLED = re.compile(r"(?<![\w:])(\w+)::")


def listed(text: str) -> dict:
    """What crates.txt says of each crate; behind the name of a static library stands `staticlib`."""
    lines = [line.split(":") for line in text.splitlines() if line and not line.startswith("#")]
    return {name.removesuffix(" staticlib"): set(uses.split()) for name, uses in lines}


def libraries(said: dict) -> set:
    """The crates, and the libraries of the toolchain that some crate lists."""
    return set(said).union(*said.values())


def named(sources: dict, known: set) -> set:
    """The known libraries that sources name, and whatever they name as a library in definitions and proofs; by the path of each."""
    found = set()
    for path, text in sources.items():
        found.update(NAMED.findall(text))
        if path.suffix == ".rt":
            found.update(set(CALLED.findall(re.sub(r"//.*", "", text))) & known)
    return found - {STANDARD}


class Crates(unittest.TestCase):
    def test_uses(self):
        said = listed((ROOT / "crates.txt").read_text())
        self.assertEqual(set(said), {folder.name for folder in (ROOT / "crates").iterdir() if folder.is_dir()})
        for name, uses in said.items():
            paths = [path for part in PARTS for path in (ROOT / "crates" / name / part).rglob("*") if path.suffix in (".rt", ".antt")]
            self.assertTrue(paths, name)
            sources = {path: path.read_text() for path in paths}
            self.assertEqual(uses, named(sources, libraries(said)) - {name}, name)

    def test_rule(self):
        """The rule itself, on sources that name crates in each way."""
        self.assertEqual(listed("# a line\nlow:\na: low\nb staticlib: low a\n"), {"low": set(), "a": {"low"}, "b": {"low", "a"}})
        sources = {
            Path("a.rt"): "use low::Thing; // other::name\nghost use Rattle.spec.specs.S.{d};\nThing::new()\nstd::io::stdin()",
            Path("a.antt"): "use Rattle.std.specs.Prelude.{ℕ}\nuse Rattle.law.proofs.L.{l}\nuse Rattle.own.proofs.M.{m}",
        }
        self.assertEqual(named(sources, {"low", "other", "spec", "law", "own"}), {"low", "spec", "law", "own"})
        self.assertEqual(named({Path("a.rt"): "kit::call()"}, libraries({"a": {"low"}, "b": {"kit"}})), {"kit"})


if __name__ == "__main__":
    unittest.main()
