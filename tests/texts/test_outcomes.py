"""No public function is left out of what crates/outcomes shows of each: that its contract is the claims of
specs/Outcomes (proofs/Contracts), and that these leave it one outcome (proofs/Outcomes). A contract that was changed is
refused by its theorem; a function whose theorem nobody stated fails here. The exports of crates/cexports have the contracts
of the functions of crates/cabi that the theorems are about, word for word.
"""
import re
import unittest
from pathlib import Path

CRATES = Path(__file__).resolve().parents[2] / "crates"
PASSED_ON = re.compile(r"^pub use (\w+)::(?:\{([^{}]*)\}|(\w+));$", re.MULTILINE)
EXPORT = re.compile(r'^pub extern "C" fn (\w+)', re.MULTILINE)
GHOST = re.compile(r"^ghost use ([^{};]+)\.\{([^{}]*)\};$", re.MULTILINE)
WORD = r"[^\W\d][\w']*"


def passed_on(text: str) -> dict:
    """The functions that a crate passes on, each with its crate; types open with a capital."""
    found = [(crate, name) for crate, listed, one in PASSED_ON.findall(text) for name in re.split(r",\s*", listed or one)]
    return {name: crate for crate, name in found if re.match("[a-z_]", name)}


def library() -> dict:
    """The functions that the crate autocrypt passes on, each with where its contract stands."""
    text = (CRATES / "autocrypt/src/lib.rt").read_text()
    return {name: f"{crate}.specs.contracts.{name}" for name, crate in passed_on(text).items()}


def module(name: str) -> Path:
    """The source of the crate cabi that has a function."""
    found = [file for file in sorted((CRATES / "cabi/src").glob("*.rt")) if re.search(rf"^pub fn {name}\(", file.read_text(), re.MULTILINE)]
    if len(found) != 1:
        raise AssertionError(f"{len(found)} modules of cabi have {name}")
    return found[0]


def exports() -> dict:
    """The functions of the C interface, each with where the contract stands of the one of cabi; a module's stand below its name."""
    places = {name: module(name).stem for name in EXPORT.findall((CRATES / "cexports/src/lib.rt").read_text())}
    return {
        name: ".".join(["cabi", "specs", "contracts", *([] if place == "lib" else [place]), name])
        for name, place in places.items()
    }


def parts(text: str, name: str) -> tuple[str, str]:
    """What stands between a function's name and its body, and the body up to the first brace in it."""
    said = re.search(rf"\bfn {name}(\(.*)", re.sub(r"//.*", "", text), re.DOTALL)[1]
    head = re.match(r"[^{}]*?(?=\{|\b(?:requires|ensures)\b)(?:(?:requires|ensures)\s*\w*\s*\{[^{}]*\}\s*)*(?=\{)", said)[0]
    return head, re.match(r"\{([^{}]*)", said[len(head) :])[1]


def bare(text: str) -> str:
    """Without layout, which the formatter of the sources chooses."""
    return re.sub(r",(?=\))", "", "".join(text.split()))


def promise(text: str, name: str) -> str:
    """What a function takes, answers and promises; a name of the proofs with where it comes from."""
    ghosts = {}
    for path, listed in GHOST.findall(text):
        for one in re.split(r",\s*", listed):
            known, _, own = one.partition(" as ")
            ghosts[own or known] = f"{path}.{known}"
    return bare(re.sub(rf"(?<![\w.«]){WORD}(?![\w»])", lambda word: ghosts.get(word[0], word[0]), parts(text, name)[0]))


def hands_on(text: str, name: str) -> bool:
    """Does a function hand its arguments, in their order, to one of its name in some module, and do no more?"""
    head, body = parts(text, name)
    arguments = re.findall(r"(\w+):", head.split(")")[0])
    return re.fullmatch(rf"\w+::{name}\({','.join(arguments)}\)", bare(body)) is not None


def stated(text: str, theorem: str) -> str:
    """What a theorem states, on one line; nothing where there is no such theorem."""
    found = re.search(rf"^ *pub {theorem} : (.*?)^ *{theorem} ", text, re.MULTILINE | re.DOTALL)
    return " ".join(found.group(1).split()) if found else ""


class Outcomes(unittest.TestCase):
    def setUp(self):
        self.contracts = (CRATES / "outcomes/proofs/Contracts.antt").read_text()
        self.outcomes = (CRATES / "outcomes/proofs/Outcomes.antt").read_text()

    def claims(self, function: str, place: str) -> str:
        """The name of the claims that the function's contract is shown to be."""
        called = re.findall(rf"^use Rattle\.{re.escape(place)} as (\S+)$", self.contracts, re.MULTILINE)
        self.assertEqual(len(called), 1, function)
        name = re.escape(called[0])
        contract = re.match(
            rf"{name}\.spec 𝓛 mem run ≡ ensuring 𝓤 𝓛 {name}\.ended \(λ κs a r e\. (\w+) .*\)$",
            stated(self.contracts, f"{function}_contract"),
        )
        self.assertTrue(contract, f"{function}_contract")
        return contract.group(1)

    def hold(self, function: str, place: str):
        claims = self.claims(function, place)
        unique = stated(self.outcomes, f"{function}_unique")
        one = re.search(rf"→ AllOf \({claims} ([^()]*)\) → AllOf \({claims} ([^()]*)\) → (.*)$", unique)
        self.assertTrue(one, f"{function} has one outcome")
        apart = [pair for pair in zip(one.group(1).split(), one.group(2).split()) if pair[0] != pair[1]]
        ends = {"r ≡ q": [("r", "q")], "(r ≡ q) × (left ≡ other)": [("r", "q"), ("left", "other")]}
        self.assertEqual(ends.get(one.group(3)), apart, unique)

    def test_library(self):
        functions = library()
        self.assertIn("process", functions)
        for function, place in functions.items():
            with self.subTest(function):
                self.hold(function, place)

    def test_c_interface(self):
        functions = exports()
        self.assertIn("vienghulac_process", functions)
        for function, place in functions.items():
            with self.subTest(function):
                self.hold(function, place)

    def test_exports(self):
        """An export promises what the function of cabi does that has its name, and hands its arguments to that one."""
        text = (CRATES / "cexports/src/lib.rt").read_text()
        for name in exports():
            with self.subTest(name):
                self.assertEqual(promise(text, name), promise(module(name).read_text(), name))
                self.assertTrue(hands_on(text, name))
        meant = [name for file in (CRATES / "cabi/src").glob("*.rt") for name in re.findall(r"^pub fn (vienghulac_\w+)", file.read_text(), re.MULTILINE)]
        self.assertEqual(set(exports()), set(meant))

    def test_rule_of_promises(self):
        text = "ghost use A.B.{one, two as three};\n// fn f\npub fn f(\n    a: &[u8], one: u8,\n) -> R\n    ensures { r ≡ three one a.one }\n{\n}\n"
        self.assertEqual(promise(text, "f"), "(a:&[u8],A.B.one:u8)->Rensures{r≡A.B.twoA.B.onea.one}")
        other = "ghost use A.B.{two, one as own};\nfn f(a: &[u8], own: u8) -> R ensures { r ≡ two own a.one } { g(a) }\n"
        self.assertEqual(promise(other, "f"), promise(text, "f"))
        for old, new in (("ensures", "ensures x"), ("-> R", "-> S"), ("≡ three", "≡ one"), ("two as", "six as"), ("A.B", "A.C"), ("{ r", "{ true } requires { r")):
            self.assertNotEqual(promise(text.replace(old, new, 1), "f"), promise(text, "f"), new)
        call = "fn f(a: &[u8], b: bool) -> R\n    ensures { x }\n{\n    m::f(a, b)\n}\n"
        self.assertTrue(hands_on(call, "f"))
        for old, new in (("m::f", "m::g"), ("(a, b)", "(b, a)"), ("(a, b)", "(a)"), ("m::f", "f"), ("m::f", "g(); m::f"), ("m::f(a, b)", "m::f(a, !b)")):
            self.assertFalse(hands_on(call.replace(old, new), "f"), new)
        self.assertEqual(passed_on("pub use a::{B, c, d};\npub use e::f;\npub use g::H;\n"), {"c": "a", "d": "a", "f": "e"})

    def test_passed_on_alone(self):
        """The crate autocrypt has no function of its own, which no theorem would be about."""
        self.assertNotIn("fn ", (CRATES / "autocrypt/src/lib.rt").read_text())


if __name__ == "__main__":
    unittest.main()
