"""PROMISES and DECISIONS keep their form, and documents their width.

    promises    a line that opens with `**name**:` begins a block, up to the next one or to a heading. No two have one name. A block ends
                with three items: "- By:", "- Rules out:" with two wrong programs or more, parted by `;`, and "- Must fail:", which is
                "none", with or without a reason behind a `;`, or crate `edit` (what it does), parted by `;`
    edits       each file crates/*/must-fail/*.edit stands in one such item, once, behind its crate; no other edit stands there, and none
                anywhere else in PROMISES
    decisions   a line that opens with `**N. Title.**` begins a decision. The numbers are 1, 2, 3 .. with no gap and no double, in any
                order. Each has "*Why:*" and "*Weighed:*" once, in this order, and behind them "*Stands.*" or "*Replaced by N.*", N being
                another decision
    width       a line of docs/*.md, of the README and of CONTRIBUTING has at most 120 characters

Each rule is a function from a text to its faults, which are tried on texts that must be refused.
"""
import re
import unittest
from collections import Counter
from pathlib import Path

ROOT = Path(__file__).resolve().parents[2]
DOCS = ROOT / "docs"
WIDTH = 120
CODE = re.compile(r"``.*?``|`[^`]*`")
EDIT = r"(\w+) `(\w+)` \((?:[^()`]|`[^`]*`)+\)"


def edits() -> list:
    """The edits that there are, each with its crate."""
    return [(path.parents[1].name, path.stem) for path in sorted((ROOT / "crates").glob("*/must-fail/*.edit"))]


def parts(text: str, opening: str) -> list:
    """What begins with such a line, up to the next such line or to a heading."""
    return re.findall(rf"^{opening}.*\n(?:(?!#|{opening}).*\n)*", text, re.MULTILINE)


def items(block: str) -> list:
    """The items of a block with a label, "- Label: text", each on one line. Further lines of an item are set in."""
    found = re.findall(r"^- ([A-Z][a-z]+(?: [a-z]+)?): (.*(?:\n  .*)*)", block, re.MULTILINE)
    return [(label, " ".join(text.split())) for label, text in found]


def programs(text: str) -> int:
    """How many wrong programs are parted by semicolons, those of code not counting."""
    return len([one for one in CODE.sub("code", text).split(";") if re.search(r"\w", one)])


def promise_faults(text: str, there: list) -> list:
    """What is wrong with a text of promises, where these are the edits."""
    blocks = parts(text, r"\*\*")
    named, faults = [], []
    for block in blocks:
        name = re.match(r"\*\*(.+?)\*\*: \S", block)
        if name is None:
            faults.append(f"no name: {block.splitlines()[0]}")
            continue
        said = items(block)
        if [label for label, _ in said] != ["By", "Rules out", "Must fail"]:
            faults.append(f"{name[1]}: not By, Rules out, Must fail")
            continue
        if programs(said[1][1]) < 2:
            faults.append(f"{name[1]}: not two wrong programs")
        if re.fullmatch(rf"{EDIT}(?:; {EDIT})*\.", said[2][1]):
            named += re.findall(EDIT, said[2][1])
        elif not re.fullmatch(r"none(?:; .+)?\.", said[2][1]):
            faults.append(f"{name[1]}: no edits and not none")
    names = Counter(re.match(r"\*\*(.*?)\*\*", block)[1] for block in blocks)
    faults += [f"twice: {name}" for name, times in names.items() if times > 1]
    times = Counter(named)
    faults += [f"{times[edit]} times: {edit[0]} {edit[1]}" for edit in there if times[edit] != 1]
    faults += [f"no such edit: {crate} {name}" for crate, name in times if (crate, name) not in there]
    elsewhere = re.sub(r"^- Must fail: [a-z].*(?:\n  .*)*", "", text, flags=re.MULTILINE)
    codes = {code.strip("`") for code in CODE.findall(elsewhere)}
    return faults + [f"elsewhere: {name}" for name in sorted({name for _, name in there} & codes)]


def decision_faults(text: str) -> list:
    """What is wrong with a text of decisions."""
    faults, numbers, replaced = [], [], []
    for decision in parts(text, r"\*\*"):
        line = " ".join(decision.split())
        title = re.match(r"\*\*(\d+)\. [A-Z`][^*]*\.\*\* \S", line)
        if title is None:
            faults.append(f"no number or title: {line[:20]}")
            continue
        number = int(title[1])
        numbers.append(number)
        marks = re.findall(r"\*(Why:|Weighed:|Stands\.|Replaced by \d+\.)\*", line)
        if len(marks) != 3 or marks[:2] != ["Why:", "Weighed:"] or marks[2].endswith(":"):
            faults.append(f"{number}: not Why, Weighed, and whether it stands")
        replaced += [(number, int(other)) for mark in marks for other in re.findall(r"\d+", mark)]
    faults += [f"twice: {number}" for number, times in Counter(numbers).items() if times > 1]
    faults += [f"gap: {number}" for number in range(1, max(numbers, default=1)) if number not in numbers]
    return faults + [f"{number}: no decision {other}" for number, other in replaced if other == number or other not in numbers]


def wide(text: str) -> list:
    """The numbers of lines that are too long."""
    return [number for number, line in enumerate(text.splitlines(), 1) if len(line) > WIDTH]


GOOD = """# Promises

## One

**`a::f`, `g`**: what it says, see `x` (R1).

    f : N

- a list: of something
- By: `f` of
  `a/specs/A`.
- Rules out: one; another,
  with `;` in it.
- Must fail: a `one` (what
  it does, by `(`); b `two` (that).

**C1, all**: more.
- By: a theorem.
- Rules out: this; that; and that.
- Must fail: none; those of `a::f` do.

## Around

- No promise of that form.
"""
THERE = [("a", "one"), ("b", "two")]

DECIDED = """# Decisions

## The house

**1. `It` is so.** Text. *Why:* a
reason. *Weighed:* other. *Stands.*

- a list
- of it

**3. That is so.** Text. *Why:* a reason. *Weighed:* other. *Replaced by 2.*

## Crates

**2. This is so.** Text. *Why:* a reason. *Weighed:* other. *Stands.*
"""


class Promises(unittest.TestCase):
    def test_promises(self):
        text = (DOCS / "PROMISES.md").read_text()
        self.assertEqual(promise_faults(text, edits()), [])
        self.assertGreater(len(edits()), 60)
        self.assertGreater(len(parts(text, r"\*\*")), 45)

    def test_decisions(self):
        text = (DOCS / "DECISIONS.md").read_text()
        self.assertEqual(decision_faults(text), [])
        self.assertGreater(len(parts(text, r"\*\*")), 45)

    def test_width(self):
        files = [*sorted(DOCS.glob("*.md")), ROOT / "README.md", ROOT / "CONTRIBUTING.md"]
        self.assertGreater(len(files), 4)
        self.assertEqual({file.name: wide(file.read_text()) for file in files if wide(file.read_text())}, {})

    def refuse(self, faults, text: str, *changes: tuple):
        """The text has no fault, and each change of it has one that is named."""
        self.assertEqual(faults(text), [])
        for old, new, fault in changes:
            self.assertIn(old, text)
            self.assertIn(fault, faults(text.replace(old, new, 1)), (old, new))

    def test_rule_promises(self):
        self.refuse(
            lambda text: promise_faults(text, THERE),
            GOOD,
            ("**C1, all**: more.", "**C1, all** more.", "no name: **C1, all** more."),
            ("- By: a theorem.\n", "", "C1, all: not By, Rules out, Must fail"),
            ("- By: a theorem.\n- Rules out: this;", "- Rules out: this; that.\n- By:", "C1, all: not By, Rules out, Must fail"),
            ("- Must fail: none; those of `a::f` do.\n", "", "C1, all: not By, Rules out, Must fail"),
            ("- Rules out: one; another,", "- Rules out: another,", "`a::f`, `g`: not two wrong programs"),
            ("- Rules out: this; that; and that.", "- Rules out: this;.", "C1, all: not two wrong programs"),
            ("none; those", "those", "C1, all: no edits and not none"),
            ("; b `two` (that).", "; b `two`.", "`a::f`, `g`: no edits and not none"),
            ("; b `two` (that).", ".", "0 times: b two"),
            ("b `two` (that)", "a `two` (that)", "0 times: b two"),
            ("b `two` (that)", "a `two` (that)", "no such edit: a two"),
            ("b `two` (that)", "b `two` (that); b `two` (again)", "2 times: b two"),
            ("none; those of `a::f` do.", "b `two` (again).", "2 times: b two"),
            ("b `two` (that)", "b `two` (that); b `three` (more)", "no such edit: b three"),
            ("- By: a theorem.", "- By: a theorem, see `two`.", "elsewhere: two"),
            ("- No promise", "- As b `two` no promise", "elsewhere: two"),
            ("**C1, all**: more.", "**`a::f`, `g`**: more.", "twice: `a::f`, `g`"),
        )

    def test_rule_decisions(self):
        self.refuse(
            decision_faults,
            DECIDED,
            ("**1. `It` is so.** Text.", "**`It` is so.** Text.", "no number or title: **`It` is so.** Text"),
            ("**1. `It` is so.**", "**1.** `It` is so.", "no number or title: **1.** `It` is so. T"),
            ("**2. ", "**4. ", "gap: 2"),
            ("**2. ", "**3. ", "twice: 3"),
            ("*Why:* a\nreason. ", "", "1: not Why, Weighed, and whether it stands"),
            ("*Weighed:* other. *Replaced", "*Replaced", "3: not Why, Weighed, and whether it stands"),
            (" *Stands.*\n\n- a list", "\n\n- a list", "1: not Why, Weighed, and whether it stands"),
            (" *Stands.*\n\n- a list", " *Stands.* *Weighed:* more.\n\n- a list", "1: not Why, Weighed, and whether it stands"),
            ("*Replaced by 2.*", "*Replaced by 4.*", "3: no decision 4"),
            ("*Replaced by 2.*", "*Replaced by 3.*", "3: no decision 3"),
        )

    def test_rule_width(self):
        self.assertEqual(wide("a" * 120 + "\n" + "ä" * 121 + "\n"), [2])


if __name__ == "__main__":
    unittest.main()
