"""Proof files of the older form are landed folded: each answer stands where it is taken (docs/PROVING.md, tools/proofs fold).
Those of today's form have no hole.
"""
import re
import types
import unittest
from pathlib import Path

ROOT = Path(__file__).resolve().parents[2]
ANSWERED = [file for name in ("Invariants", "Answers") for file in sorted((ROOT / "crates").glob(f"*/proofs/**/{name}.antt"))]


def holed(text: str) -> bool:
    """Is there a hole, `?`, in a proof file?"""
    return re.search(r"(?<![^\s(])\?(?![^\s;),])", re.sub(r"--.*", "", text)) is not None


def loaded(path: Path):
    """A program without an ending, as a module."""
    module = types.ModuleType(path.name)
    module.__file__ = str(path)
    exec(compile(path.read_text(), path, "exec"), module.__dict__)
    return module


TOOL = loaded(ROOT / "tools/proofs")


LONG = """-- `a::f` meets its contract. Assumes nothing.
use borrow.Author.Needs.{needs}
use Rattle.a.proofs.Laws.{laws}
use Rattle.a.proofs.f.Statement.{statement}
use Rattle.a.proofs.f.Tie as tie
use Rattle.a.proofs.g.Reads as g-reads

abbrev Inv-loop : tie.InvT-loop
Inv-loop s i₀ i = Going s i

-- src/lib.rt:3:5
g-requires : tie.Need-g-requires Inv-loop
g-requires c κs = search laws

spelled : tie.Need-spelled Inv-loop
spelled c κs = (search needs, search laws)

returns : tie.Need-returns Inv-loop
unfolding over
returns c = search laws

pub f-spec : {M : Type 1} → statement M
f-spec = tie.close (tie.spec Inv-loop g-requires spelled returns)
"""

SHORT = """-- `a::f` meets its contract. Assumes nothing.
use borrow.Author.Needs.{needs}
use Rattle.a.proofs.Laws.{laws}
use Rattle.a.proofs.f as fn

pub f-spec : {M : Type 1} → fn.Statement.statement M
f-spec =
    fn.Tie.close (fn.Tie.spec (λ s i₀ i. Going s i) (λ c. search laws) (λ c κs. (search needs, search laws))
    (λ c. unfold over in search laws))
"""


class Proofs(unittest.TestCase):
    def test_all_folded(self):
        files = sorted((ROOT / "crates").glob("*/proofs/**/Proof.antt"))
        self.assertGreater(len(files) + len(ANSWERED), 200)
        self.assertEqual([str(f.relative_to(ROOT)) for f in files if "tie.Need-" in f.read_text()], [])

    def test_all_answered(self):
        """What today's toolchain reads says something, and leaves no hole; no function has a proof in both forms."""
        self.assertGreater(len(ANSWERED), 4)
        texts = {str(f.relative_to(ROOT)): f.read_text() for f in ANSWERED}
        self.assertEqual([file for file, text in texts.items() if " : goal." not in text or holed(text)], [])
        self.assertEqual([str(f.parent.relative_to(ROOT)) for f in ANSWERED if (f.parent / "Proof.antt").exists()], [])

    def test_holes(self):
        for text in ("returns c = ?\n", "returns c =\n    record { a = ?; b = c }\n", "returns c = (?, c)", "invariant-loop-i l =\n    ?\n"):
            self.assertTrue(holed(text), text)
        for text in ("returns c = search rules -- why?\n", "returns? c = is_it?\n"):
            self.assertFalse(holed(text), text)

    def test_no_hole(self):
        files = sorted((ROOT / "crates").glob("*/proofs/**/*.antt"))
        self.assertEqual([str(f.relative_to(ROOT)) for f in files if re.search(r"= *\n? *\?$", f.read_text(), re.MULTILINE)], [])

    def test_fold(self):
        self.assertEqual(TOOL.folded(LONG, False), SHORT)

    def test_lifetimes(self):
        self.assertIn("(λ c κs. search laws)", TOOL.folded(LONG, True))

    def test_folded_is_left(self):
        with self.assertRaises(TOOL.Unfit):
            TOOL.folded(SHORT, False)

    def test_had(self):
        """What `renew` takes out of either form is the same."""
        long, short = TOOL.answers_had(LONG), TOOL.answers_had(SHORT)
        self.assertEqual(long[2:], short[2:])
        self.assertEqual(short[2], ["Going s i"])
        self.assertEqual(short[3], ["search laws", "(search needs, search laws)", "unfold over in search laws"])

    def test_had_of_a_long_item(self):
        """A first item that does not fit begins a line."""
        wide = "Going s i × " + " × ".join(["length s ≡ length s"] * 6)
        folded = TOOL.folded(LONG.replace("Going s i", wide), False)
        self.assertIn("(fn.Tie.spec\n", folded)
        self.assertEqual(TOOL.answers_had(folded)[2], [wide])

    def test_answered(self):
        """What is offered may have its hole on a line of its own."""
        offered = "use A.{a}\n\n-- at\npub loop-i-init : goal.loop-i-init\nloop-i-init c =\n    ?\n\npub returns : goal.returns\nreturns c κs = ?\n"
        text = TOOL.answered(offered, "search laws", ["use L.{laws}", "use A.{a}"])
        self.assertTrue(text.startswith("use A.{a}\nuse L.{laws}\n\n-- at\n"))
        self.assertIn("\nloop-i-init c = search laws\n", text)
        self.assertIn("\nreturns c κs = search laws\n", text)

    def test_remembered(self):
        """The invariants that there were stand above the new ones."""
        offered = "use A.{a}\n\nabbrev pub invariant-loop-i : goal.invariant-loop-i\ninvariant-loop-i l = ?\n"
        text = TOOL.remembered(offered, ["λ s i₀ i. Going\n    s i"])
        self.assertEqual(text, offered.replace("\n\n", "\n\n-- it was: λ s i₀ i. Going s i\n"))

    def test_unproved(self):
        lines = ["fn a::f: no proof: expected a measure in ./proofs/f/Invariants.antt", "fn a::g: proved", "logic=not-proved"]
        self.assertEqual(TOOL.unproved(lines), ["a::f"])


if __name__ == "__main__":
    unittest.main()
