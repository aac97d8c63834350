"""What an export answers: nothing, a number, a bool, or a struct of whole numbers of at most 16 octets.

A larger struct is answered by way of a hidden pointer, which the code expects where x86-64 passes it and a caller on
aarch64 passes elsewhere. What is larger goes into lent numbers. The rule is held of the shipped exports, of the header that
declares them, and of the tests' own exports. The shipped ones stand in the crate cexports, and what they answer in cabi.
"""
import re
import unittest
from pathlib import Path

ROOT = Path(__file__).resolve().parents[2]
HEADER = ROOT / "include" / "vienghulac.h"
SHIPPED = "cexports"
CRATES = {SHIPPED: (SHIPPED, "cabi"), "probe": ("probe",)}  # with those that declare the structs
LIMIT = 16
WIDTHS = {"u8": 1, "u16": 2, "u32": 4, "u64": 8, "usize": 8, "i8": 1, "i16": 2, "i32": 4, "i64": 8, "isize": 8}
C_WIDTHS = {"uint8_t": 1, "uint16_t": 2, "uint32_t": 4, "uint64_t": 8, "size_t": 8}

Structs = dict[str, list[str]]


def without_comments(text: str) -> str:
    return re.sub(r"//[^\n]*|/\*.*?\*/", " ", text, flags=re.DOTALL)


def declared(text: str) -> tuple[Structs, dict[str, str]]:
    """The `repr(C)` structs of a crate with their fields' types, and its exports with what they answer."""
    text = without_comments(text)
    structs = {}
    for name, body in re.findall(r"#\[repr\(C\)\]\s*(?:#\[[^\]]*\]\s*)*pub struct (\w+)[^{]*\{([^}]*)\}", text):
        structs[name] = [field.split(":")[1].strip() for field in body.split(",") if field.strip()]
    exports = {}
    for found in re.finditer(r'extern\s+"C"\s+fn\s+(\w+)\s*\(', text):
        head = text[found.end() : text.index("{", found.end())]
        answer = re.search(r"->\s*(.*?)\s*(?:\bensures\b|\brequires\b|$)", head, flags=re.DOTALL)
        exports[found[1]] = answer[1] if answer else ""
    return structs, exports


def declared_in_c(text: str) -> tuple[Structs, dict[str, str]]:
    """The same of a C header."""
    text = re.sub(r"^#.*$", "", without_comments(text), flags=re.MULTILINE)
    structs = {}
    for body, name in re.findall(r"typedef struct \w*\s*\{([^}]*)\}\s*(\w+);", text):
        structs[name] = [kind for line in body.split(";") if line.strip() for kind in kinds_in(line)]
    bare = re.sub(r"typedef struct.*?\}\s*\w+;", "", text, flags=re.DOTALL)
    return structs, {name: kind.strip() for kind, name in re.findall(r"([\w *]+?)\b(\w+)\(", bare)}


def kinds_in(line: str) -> list[str]:
    """`uint32_t a, b` declares two."""
    kind, names = line.split(None, 1)
    return [kind] * (names.count(",") + 1)


def octets(fields: list[str], widths: dict[str, int]) -> int | None:
    """The length of a struct of such fields, each at a multiple of its own length; None where one is no whole number."""
    if not fields or any(field not in widths for field in fields):
        return None
    end = 0
    for field in fields:
        end += -end % widths[field] + widths[field]
    return end + -end % max(widths[field] for field in fields)


def fault(answer: str, structs: Structs, widths: dict[str, int]) -> str | None:
    """What is wrong with such an answer."""
    if answer in ("", "void", "bool") or answer in widths:
        return None
    if answer not in structs:
        return f"it answers {answer}, which is no number, no bool and no struct that is declared beside it"
    length = octets(structs[answer], widths)
    if length is None:
        return f"it answers {answer}, which does not hold whole numbers alone"
    return f"it answers {answer}, of {length} octets" if length > LIMIT else None


def faults(structs: Structs, exports: dict[str, str], widths: dict[str, int]) -> list[str]:
    found = {name: fault(answer, structs, widths) for name, answer in exports.items()}
    return [f"{name}: {words}" for name, words in found.items() if words]


def crate(name: str) -> str:
    return "\n".join(path.read_text() for path in sorted((ROOT / "crates" / name / "src").rglob("*.rt")))


class Exports(unittest.TestCase):
    def test_crates(self):
        for name, beside in CRATES.items():
            text = "\n".join(crate(one) for one in beside)
            structs, exports = declared(text)
            self.assertGreater(len(exports), 10, name)
            self.assertEqual(len(exports), without_comments(text).count("no_mangle"), f"{name}: an export was not read")
            self.assertEqual(faults(structs, exports, WIDTHS), [], name)

    def test_header(self):
        structs, exports = declared_in_c(HEADER.read_text())
        self.assertEqual(set(exports), set(declared(crate(SHIPPED))[1]), "the header's functions are the crate's")
        self.assertEqual(faults(structs, exports, C_WIDTHS), [])

    def test_rule(self):
        """The rule itself, on declarations that keep it and that break it."""
        right = '#[repr(C)]\npub struct S { pub a: u32, pub b: u64 }\npub extern "C" fn f(x: &[u8]) -> S\n    ensures { x }\n{ g(x) }'
        self.assertEqual(faults(*declared(right), WIDTHS), [])
        derived = right.replace("pub struct", "#[derive(Clone, Copy)]\npub struct").replace("ensures", "ensures value")
        self.assertEqual(declared(derived), declared(right))
        for wrong in ("a: u64, pub b: u64, pub c: u8", "a: u8, pub b: u64, pub c: u8", "a: f64, pub b: u64", "a: bool"):
            text = right.replace("a: u32, pub b: u64", wrong)
            self.assertEqual(len(faults(*declared(text), WIDTHS)), 1, wrong)
        self.assertEqual(len(faults(*declared(right.replace("-> S", "-> T")), WIDTHS)), 1)
        c = "/* void h(void); */ typedef struct {\n    uint32_t a, b;\n    uint64_t c;\n} s;\ns f(const uint8_t *x,\n    size_t n);\nvoid g(bool b);"
        self.assertEqual(declared_in_c(c), ({"s": ["uint32_t", "uint32_t", "uint64_t"]}, {"f": "s", "g": "void"}))
        self.assertEqual(faults(*declared_in_c(c), C_WIDTHS), [])
        self.assertEqual(len(faults(*declared_in_c(c.replace("a, b", "a, b, d")), C_WIDTHS)), 1)


if __name__ == "__main__":
    unittest.main()
