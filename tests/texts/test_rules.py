"""The rules of docs/SCOPE.md, and all that cites them:

    numbers     the rules of a page are numbered from 1 on, none left out and none twice; on page R from 1 and from 31. Where a rule is
                dropped its number stays, with the word "dropped"
    trace       docs/TRACE.md has a block of the one form for each rule in force, in the order of SCOPE, and no other
    citations   what is cited is a rule in force; of T8.2, that T8 has that many points
    specs       a file of definitions cites a rule, or VOCABULARY says why it has none to cite
    changes     a line of a rule that ends with "(Change 1.)" or "(Changes 2, 4.)" says which changes brought or altered the rule; TRACE has
                "(change 1)" or "(changes 2, 4)" behind the title of the same rules, and docs/changes/ one note for each number
    tests       each rule of the pages T to R, and each point, is cited by a test of the independent program, or ELSEWHERE says by
                which other; and a test of the independent program that TRACE names for a rule cites it

A citation is the letter of a page with a number of one digit or two, and perhaps a point: T7, T8.2. It stands by itself in a comment, a
docstring or a document, or behind `_` in the name of a test. In backquotes it is a text and no citation, as the mark of a slot is.
"""
import ast
import io
import re
import tokenize
import unittest
from functools import lru_cache
from pathlib import Path

ROOT = Path(__file__).resolve().parents[2]
SCOPE = (ROOT / "docs/SCOPE.md").read_text()
TRACE = (ROOT / "docs/TRACE.md").read_text()
INDEPENDENT = "tests/independent/tests"

# The first number of the rules on page R that are not about one refusal.
COMMON = 31

# The lines of a block of TRACE, in their order.
KINDS = ["means", "code", "proved", "see", "tests"]

# Rules that the independent program does not have, and the folder whose tests cite them.
ELSEWHERE = {"B14": "tests/differential"}

# Files of definitions that no rule is about: words of lists and memory, and what functions of the code ask for and answer.
VOCABULARY = {
    "date/Answers": "answers of the code for a Date, and back",
    "datewords/Answers": "answers of the code for a token, and back",
    "keyfield/Answers": "places of a value, for what stands between them",
    "octets/Finding": "the first place of an octet",
    "octets/Options": "what may be absent, and lists",
    "octets/Puts": "a text written while it is made",
    "octets/Tests": "tests of every element",
    "octets/Written": "memory that is written over",
    "table/Tagged": "tags travel beside a table, and no caller sees them",
    "tags/Tags": "a tag is compared before addresses are, and no caller sees it",
}

PAGES = "".join(re.findall(r"^## ([A-Z])\. ", SCOPE, re.MULTILINE))
CITED = re.compile(rf"(?<![\w.+/-])([{PAGES}][1-9]\d?(?:\.\d+)?)(?![\w/+]|\.\d)")
IN_NAME = re.compile(rf"_([{PAGES}][1-9]\d?)(?=_|$)")

# A small document of each kind, for the tests of what is asked here, and the rules that it has.
RULES = {"T1": 2, "T3": 0, "R1": 0, "R31": 0}
A_SCOPE = "## T. T\n\n**T1** A.\n\n1. one\n2. two\n\n**T2** Dropped.\n\n**T3** B.\n\n## R. R\n\n**R1** C.\n\n**R31** D.\n\n## Words\n"
A_BLOCK = "- means: a/B: `c`,\n  `d`\n- code: `e::f`\n- tests: tests/g.py,\n  tests/h.py\n\n"
A_TRACE = f"# A\n\n- `means`\n\n## T. T\n\n**T1** one\n{A_BLOCK}**T3** three\n{A_BLOCK}## R. R\n\n**R1** r\n{A_BLOCK}**R31** s\n- see: T1\n"


# What there is.


def sections(text: str) -> list:
    """The rules of a document: the page under which each stands, its id, and what it says up to the next."""
    found, page = [], ""
    for line in text.split("\n"):
        if heading := re.match(r"## (?:([A-Z])\. )?", line):
            page = heading[1] or ""
        elif rule := re.match(r"\*\*([A-Z]\d+)\*\* ?(.*)", line):
            found.append((page, rule[1], [rule[2]]))
        elif found and page:
            found[-1][2].append(line)
    return [(page, rule, "\n".join(lines).rstrip()) for page, rule, lines in found]


def is_dropped(text: str) -> bool:
    return re.match(r"dropped\b", text, re.IGNORECASE) is not None


def in_force(scope: str) -> dict:
    """The rules that hold, in their order, each with the number of its points."""
    return {rule: len(re.findall(r"^\d+\. ", text, re.MULTILINE)) for _, rule, text in sections(scope) if not is_dropped(text)}


def numbering(scope: str) -> list:
    """What is wrong with the numbers of the rules."""
    wrong, last = [], {}
    for page, rule, text in sections(scope):
        number = int(rule[1:])
        due = last.get(page, 0) + 1
        if rule[0] != page:
            wrong.append(f"{rule} stands on page {page}")
        elif number != due and not (page == "R" and due <= number == COMMON):
            wrong.append(f"{rule} where {page}{due} is due")
        elif page == "R" and number == COMMON - 1:
            wrong.append(f"{rule} is kept free")
        last[page] = number
        if not text:
            wrong.append(f"{rule} says nothing")
    return wrong


def tracing(trace: str, rules: list) -> list:
    """What is wrong with the blocks of TRACE, where these are the rules."""
    wrong = [f"{rule} stands on page {page}" for page, rule, _ in sections(trace) if rule[0] != page]
    traced = [rule for _, rule, _ in sections(trace)]
    wrong += [f"{rule} is missing" for rule in rules if rule not in traced]
    wrong += [f"{rule} is no rule" for rule in traced if rule not in rules]
    wrong += [f"{rule} stands twice" for rule in rules if traced.count(rule) > 1]
    if not wrong and traced != rules:
        wrong.append("the order is another")
    for _, rule, text in sections(trace):
        title, *lines = text.split("\n")
        kinds = [re.sub(r"^- (\w+): \S.*", r"\1", line) for line in lines if not line.startswith("  ")]
        if not title or kinds != [kind for kind in KINDS if kind in kinds]:
            wrong.append(f"{rule} has another form")
    return wrong


def changes(text: str, mark: str) -> dict:
    """The marks of changes on the rules in force of a document, by rule: the numbers as they stand there."""
    rules = [(rule, said.partition("\nReading:")[0]) for _, rule, said in sections(text) if not is_dropped(said)]
    return {rule: found[1] for rule, said in rules if (found := re.search(mark, said, re.MULTILINE))}


def in_scope(scope: str) -> dict:
    return changes(scope, r"(?:^|(?<= ))\(Changes? (\d+(?:, \d+)*)\.\)$")


def in_trace(trace: str) -> dict:
    return changes(trace, r"\A.* \(changes? (\d+(?:, \d+)*)\)$")


def marks(text: str) -> int:
    """How many marks there are on rules in force, in their form or not."""
    rules = "\n".join(said for _, _, said in sections(text) if not is_dropped(said))
    return len(re.findall(r"\(changes?\s+\d", rules, re.IGNORECASE))


def tests_in_trace(trace: str) -> dict:
    """The files that TRACE names as tests of each rule."""
    lines = {rule: re.search(r"^- tests: (.*(?:\n  .*)*)", text, re.MULTILINE) for _, rule, text in sections(trace)}
    return {rule: line[1].replace("\n ", "").split(", ") for rule, line in lines.items() if line}


# What is cited.


def outside_code(text: str) -> str:
    return re.sub(r"^```.*?^```$|``.*?``|`[^`\n]*`", " ", text, flags=re.MULTILINE | re.DOTALL)


def comments(source: str) -> dict:
    """The comments of a Python program, by their lines."""
    tokens = tokenize.generate_tokens(io.StringIO(source).readline)
    return {token.start[0]: token.string for token in tokens if token.type == tokenize.COMMENT}


def in_tests(source: str) -> dict:
    """What each test of a Python program cites: in its name, in its docstring and in the comments inside it."""
    said, found = comments(source), {}
    for node in ast.walk(ast.parse(source)):
        if isinstance(node, ast.FunctionDef) and node.name.startswith("test_"):
            inside = [said[line] for line in range(node.lineno, node.end_lineno + 1) if line in said]
            text = outside_code("\n".join([ast.get_docstring(node) or "", *inside]))
            found.setdefault(node.name, set()).update(IN_NAME.findall(node.name), CITED.findall(text))
    return found


def in_python(source: str) -> set:
    documented = (ast.Module, ast.ClassDef, ast.FunctionDef, ast.AsyncFunctionDef)
    texts = [ast.get_docstring(node) or "" for node in ast.walk(ast.parse(source)) if isinstance(node, documented)]
    text = outside_code("\n".join([*comments(source).values(), *texts]))
    return set(CITED.findall(text)).union(*in_tests(source).values())


def cited(name: str, text: str) -> set:
    """What a file cites, by its name and its text."""
    suffix = Path(name).suffix
    if suffix == ".py" or text.startswith("#!/usr/bin/env python"):
        return in_python(text)
    in_c = r"(?s)/\*.*?\*/|//[^\n]*"
    patterns = {".antt": r"--.*", ".rt": r"//.*", ".h": in_c, ".c": in_c, ".md": r"(?s).+", "": r"(?m)(?:^|\s)#.*"}
    return set(CITED.findall(outside_code("\n".join(re.findall(patterns[suffix], text)))))


def unknown(names: set, rules: dict) -> list:
    """Those that are no rule in force, or a point that the rule does not have."""
    def is_known(name: str) -> bool:
        rule, _, point = name.partition(".")
        return rule in rules and (not point or 1 <= int(point) <= rules[rule])

    return sorted(name for name in names if not is_known(name))


def files() -> list:
    """Whatever may cite a rule, but for this file."""
    found = [path for part in ("specs", "src", "proofs") for path in sorted((ROOT / "crates").glob(f"*/{part}/**/*"))]
    found += [path for folder in ("tests", "python", "include", "bench", "docs") for path in sorted((ROOT / folder).rglob("*"))]
    kinds = (".antt", ".rt", ".py", ".h", ".c", ".md", "")
    data = re.compile(r"/(messages|__pycache__|build)/")
    found = [path for path in found if path.is_file() and path.suffix in kinds and path != Path(__file__)]
    named = [str(path.relative_to(ROOT)) for path in [*sorted(ROOT.glob("*.md")), *found]]
    return [file for file in named if not data.search(file)]


@lru_cache(None)
def cited_by(file: str) -> set:
    """What a file below the root cites."""
    return cited(file, (ROOT / file).read_text())


class Rules(unittest.TestCase):
    def setUp(self):
        self.rules = in_force(SCOPE)
        self.assertGreater(len(self.rules), 150)

    def test_numbers(self):
        self.assertEqual(numbering(SCOPE), [])

    def test_trace(self):
        self.assertEqual(tracing(TRACE, list(self.rules)), [])

    def test_changes(self):
        marked = in_scope(SCOPE)
        self.assertLessEqual({"G1", "G2"}, set(marked))
        self.assertEqual(in_trace(TRACE), marked)
        self.assertEqual((marks(SCOPE), marks(TRACE)), (len(marked), len(marked)))
        notes = [int(path.name[:2]) for path in sorted((ROOT / "docs/changes").glob("[0-9][0-9]-*.md"))]
        self.assertEqual(len(notes), len(set(notes)))
        numbers = {int(number) for listed in marked.values() for number in listed.split(", ")}
        self.assertEqual(sorted(numbers - set(notes)), [])

    def test_citations(self):
        read = {file: cited_by(file) for file in files()}
        wrong = {file: unknown(ids, self.rules) for file, ids in read.items()}
        self.assertEqual({file: ids for file, ids in wrong.items() if ids}, {})
        self.assertGreater(len(read), 400)
        self.assertGreater(sum(map(len, read.values())), 800)

    def test_specs(self):
        specs = [file for file in files() if re.fullmatch(r"crates/\w+/specs/\w+\.antt", file) and not file.endswith("/Lib.antt")]
        silent = [file for file in specs if not cited_by(file)]
        listed = [f"crates/{name.replace('/', '/specs/')}.antt" for name in VOCABULARY]
        self.assertEqual([file for file in silent if file not in listed], [])
        self.assertEqual([file for file in listed if file not in specs], [])

    def test_tests(self):
        """A rule's point counts for the rule as well."""
        def of(folder: str) -> set:
            tests = [in_tests(path.read_text()) for path in sorted((ROOT / folder).glob("test_*.py"))]
            names = set().union(*(ids for one in tests for ids in one.values()))
            return names | {name.partition(".")[0] for name in names}

        wanted = {rule for rule in self.rules if rule[0] != "C"}
        wanted |= {f"{rule}.{point}" for rule in wanted for point in range(1, self.rules[rule] + 1)}
        self.assertEqual(sorted(wanted - set(ELSEWHERE) - of(INDEPENDENT)), [])
        self.assertEqual([rule for rule, folder in ELSEWHERE.items() if rule not in of(folder)], [])

    def test_tests_of_trace(self):
        said = [(rule, file) for rule, listed in tests_in_trace(TRACE).items() for file in listed if file.startswith(INDEPENDENT)]
        self.assertEqual([(rule, file) for rule, file in said if rule not in {name.partition(".")[0] for name in cited_by(file)}], [])
        self.assertGreater(len(said), 150)

    def test_rule_of_numbers(self):
        self.assertEqual(in_force(A_SCOPE), RULES)
        self.assertEqual(numbering(A_SCOPE), [])
        for old, new in (
            ("**T2** Dropped.\n\n", ""), ("**T2** Dropped.", "**T2**"), ("**T1**", "**T0**"), ("**T3**", "**T4**"), ("**T3**", "**T2**"),
            ("**T3**", "**B3**"), ("**R1**", "**R2**"), ("**R31**", "**R32**"), ("**R31**", "**T31**"), ("## R. R", "## B. B"),
            ("## Words\n", "## Words\n\n**R32** E.\n"),
        ):
            self.assertIn(old, A_SCOPE)
            self.assertTrue(numbering(A_SCOPE.replace(old, new)), (old, new))
        many = "## R. R\n\n" + "".join(f"**R{number}** A.\n\n" for number in range(1, COMMON))
        self.assertEqual(numbering(many), [f"R{COMMON - 1} is kept free"])
        self.assertEqual(numbering(many.replace(f"R{COMMON - 1}", f"R{COMMON}")), [])

    def test_rule_of_trace(self):
        self.assertEqual(tracing(A_TRACE, list(RULES)), [])
        self.assertEqual(tests_in_trace(A_TRACE), {rule: ["tests/g.py", "tests/h.py"] for rule in ("T1", "T3", "R1")})
        for old, new in (
            ("**T3**", "**T2**"), ("**T3**", "**T1**"), ("**T1** one", "**T3** one"), ("**R31** s\n- see: T1\n", ""), ("## R. R", "## B. B"),
            ("**T1** one", "**T1**"), ("**T1** one\n", "**T1** one\n\n"), ("**T3** three", "**T3** three\n\nMore."), ("- code", "- codes"),
            ("- code", "- tests"), ("- means", "- proved"), ("- see:", "see:"), ("- see: T1", "- see:"),
        ):
            self.assertIn(old, A_TRACE)
            self.assertTrue(tracing(A_TRACE.replace(old, new), list(RULES)), (old, new))
        swapped = A_TRACE.replace("**T1** one", "**T0** one").replace("**T3**", "**T1**").replace("**T0**", "**T3**")
        self.assertEqual(tracing(swapped, list(RULES)), ["the order is another"])

    def test_rule_of_changes(self):
        for said, listed, many in (
            ("A. (Change 1.)\nReading: b.", "1", 1), ("A\nb. (Changes 2, 12.)", "2, 12", 1), ("A\nb.\n(Change 1.)", "1", 1),
            ("A. (Change 1) b.", None, 1), ("A. (Change\n1.)", None, 1), ("A. (Changes 2,4.)", None, 1), ("A.", None, 0),
            ("A.\nReading: b. (Change 1.)", None, 1), ("Dropped. (Change 3.)", None, 0),
        ):
            scope = f"## T. T\n\n**T1** {said}\n\n**T2** A.\n"
            self.assertEqual((in_scope(scope), marks(scope)), ({"T1": listed} if listed else {}, many), said)
        trace = "## T. T\n\n**T1** one (change 1)\n- see: T2\n\n**T2** two (changes 2, 12)\n\n**T3** three\n- see: T1 (change 2)\n"
        self.assertEqual((in_trace(trace), marks(trace)), ({"T1": "1", "T2": "2, 12"}, 3))

    def test_rule_of_citations(self):
        self.assertEqual(unknown({"T1", "T1.2", "R31"}, RULES), [])
        self.assertEqual(unknown({"T2", "T1.3", "T1.0", "T3.1", "R2", "C1"}, RULES), ["C1", "R2", "T1.0", "T1.3", "T2", "T3.1"])
        python = "'''D2 `D3`'''\ndef test_a_T3_B1(self):\n    # T8.2: b, noqa: F401\n    C9 = b'D1'\n\n\ndef other_D4(self):\n    '''D5'''\n"
        self.assertEqual(in_tests(python), {"test_a_T3_B1": {"T3", "B1", "T8.2"}})
        for name, text, ids in (
            ("a.py", python, {"D2", "T3", "B1", "T8.2", "D5"}),
            ("a", "#!/usr/bin/env python3\n" + python, {"D2", "T3", "B1", "T8.2", "D5"}),
            ("a.antt", "-- T7, T8.2: a (L1 to L3), `A1`\nB1 : C\nb = 2 -- R5.\n", {"T7", "T8.2", "L1", "L3", "R5"}),
            ("a.rt", "/// T7: a.\nlet mark = b\"A1\"; // (T4)\n", {"T7", "T4"}),
            ("a.c", "/* T7 and\n * L2 */ int A1; // D3\n", {"T7", "L2", "D3"}),
            ("a.md", "**T1** a, **C1: b.** `L1`\n```\nD1\n```\n(G1), U2 to U3 \"A5\"", {"T1", "C1", "G1", "U2", "U3", "A5"}),
            ("run", "#!/usr/bin/env bash\n# B2: a\necho B3 # B4\n", {"B2", "B4"}),
            ("a.md", "F401 T8.2.3 C/A1 UTF-A1 A1x xA1 A01 A0 B123 2.B1 K1 c11", set()),
        ):
            self.assertEqual(cited(name, text), ids, text)


if __name__ == "__main__":
    unittest.main()
