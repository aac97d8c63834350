"""The documents name only what exists. These forms are read, in docs/ but for PORT.md and DESIGN-PASS.md, in the README and in CONTRIBUTING:

    places      crate/specs/File, crate/proofs/File, tests/..: the file or folder is there (`.antt` may be left out)
    parts       `crate/proofs/File: a`; `crate/proofs/File`: `a`, `b`; `a` of `crate/proofs/File`; `a`, `b` (`crate/specs/File`); and
                TRACE's crate/File: `a`, `b` for a file of specs/, with each name up to the next `;`, `|` or place: the file
                defines the names. `a` of `crate`: it stands in that crate
    functions   `crate::a`, `b`: the crate's sources declare both; `Type::a`: those of a crate with that type have it;
                `crate`: `a`, `b`: they stand in that crate's sources
    edits       must-fail `a`, `b`: there are such edits; crate `a`, must-fail crate `a`, (crate, `a`), `a` of `crate`: in that crate. What
                PROMISES has to say of each is read by test_promises.py
    words       `like_this`, `like-this`, `likeThis` and `LikeThis` stand in some source, whatever is said around them
    statements  what PROMISES sets out, a declaration or a theorem, stands so in the sources
    crates      the list of ARCHITECTURE and crates.txt have all crates; the arrows of its picture are those of crates.txt, but
                for those that follow from others

Who renames something is told here which sentences speak of it. A word that is no name of this repository is listed in FOREIGN.
"""
import re
import unittest
from functools import lru_cache
from pathlib import Path

ROOT = Path(__file__).resolve().parents[2]
CRATES = sorted(path.name for path in (ROOT / "crates").iterdir() if path.is_dir())
# these have the names of before beside those of today, as docs/changes/ has the names of its time
BESIDE = [ROOT / "docs/PORT.md", ROOT / "docs/DESIGN-PASS.md"]
DOCS = [*sorted({*(ROOT / "docs").glob("*.md")} - set(BESIDE)), ROOT / "README.md", ROOT / "CONTRIBUTING.md"]
SOURCES = ("crates", "include", "python", "tests", "bench", "tools")
FOREIGN = {"EmailPolicy", "day-name", "py3-none-PLATFORM", "rattle-kit-13f", "x86_64"}

CRATE = r"(?!crate/)[a-z][a-z0-9]*"
INSIDE = rf"{CRATE}/(?:specs|proofs|src|must-fail)\b(?:/[\w+.]*\w)*"
PLACE = rf"(?<![\w/*])(?:{INSIDE}|(?:%s)/[a-z][\w/.-]*\w)" % "|".join(SOURCES)
LIST = r"`[^`]+`(?:(?:, | and | or )`[^`]+`)*"
WORD = r"[^\W\d][\w']*(?:-\w+)*"
LISTED = r"^(\w+)(?: staticlib)?:(.*)$"


# What there is.


def files_in(folder: str) -> list:
    """What stands below a folder, but for what `rt` leaves in the folder out/ of a crate."""
    made = {ROOT / "crates" / crate / "out" for crate in CRATES}
    return [path for path in sorted((ROOT / folder).rglob("*")) if not made & {path, *path.parents}]


@lru_cache(None)
def source(*folders: str) -> str:
    """The sources in these folders, without comments; this file is none of them."""
    comments = {".rt": r"//.*", ".antt": r"^ *--.*", ".py": r"^ *#.*", ".h": r"\Z", ".c": r"\Z"}
    files = [file for folder in folders for file in files_in(folder) if file.suffix in comments]
    texts = [re.sub(comments[file.suffix], "", file.read_text(), flags=re.MULTILINE) for file in files if file.name != Path(__file__).name]
    return "\n".join(texts)


@lru_cache(None)
def words_of(*folders: str) -> set:
    """Every word of the sources, and what files are called, edits among them."""
    files = {path.stem for folder in folders for path in files_in(folder)}
    return files | set(re.findall(WORD, source(*folders)))


@lru_cache(None)
def edits(crate: str) -> set:
    return {path.stem for path in (ROOT / "crates" / crate / "must-fail").glob("*.edit")}


def with_edit(name: str) -> list:
    return [crate for crate in CRATES if name in edits(crate)]


def at(path: str) -> Path | None:
    """The file or folder of that name, below the root or below crates/."""
    options = [top / (path + end) for top in (ROOT, ROOT / "crates") for end in ("", ".antt")]
    return next((option for option in options if option.exists()), None)


def defines(path: str, name: str) -> bool:
    """Does a file of specs/ or proofs/ define this: a definition, a law, a type, a case, a field, a ruleset?"""
    file = at(path)
    head = rf"^ *(?:(?:abbrev|unfoldable|pub|data|record|ruleset) )*{re.escape(name)}(?: [^:=\n]*)? [:=]"
    return file is not None and file.is_file() and re.search(head, file.read_text(), re.MULTILINE) is not None


def declares(crate: str, name: str) -> bool:
    """Do the sources of a crate declare this, or pass it on?"""
    passed_on = rf"\bpub use \w+::(?:\{{[^{{}}]*\b)?{name}\b"
    return re.search(rf"\b(?:fn|const|struct|enum|mod) {name}\b|{passed_on}", source(f"crates/{crate}/src")) is not None


def in_type(owner: str, name: str) -> bool:
    """Is there such a type, and does its crate have this name?"""
    texts = [source(f"crates/{crate}/src") for crate in CRATES]
    return any(re.search(rf"\b(?:struct|enum) {owner}\b", text) and re.search(rf"\b{name}\b", text) for text in texts)


# What the documents say there is: each form as a list of pairs, what is said and whether it is so.


def prose(text: str) -> str:
    """A document on one line, since a sentence may be broken anywhere, without programs that are set out."""
    text = re.sub(r"^```.*?^```$|``.*?``", " ", text, flags=re.MULTILINE | re.DOTALL)
    return " ".join(text.split())


def names(text: str) -> list:
    """The words that open what is set as code in a text: of `belongs Name` the first."""
    return [word for code in re.findall(r"`([^`]+)`", text) for word in re.findall(rf"^{WORD}(?=$| )", code)]


def places(text: str) -> list:
    return [(path, at(path) is not None) for path in re.findall(PLACE, text)]


def parts(text: str) -> list:
    found = [(path, [name]) for path, name in re.findall(rf"`({INSIDE}): ([^`]+)`", text)]
    found += [(path, names(listed)) for listed, path in re.findall(rf"({LIST}) of `({INSIDE})`", text)]
    found += [(path, names(listed)) for listed, path in re.findall(rf"({LIST}) \(`({CRATE}/specs/\w+)`", text)]
    found += [(path, names(listed)) for path, listed in re.findall(rf"`({INSIDE})`: ({LIST})", text)]
    for path, listed in re.findall(rf"(?<![\w/`])({CRATE}/(?:specs/|proofs/)?[A-Z]\w*): (.*?)(?=[;|]| {CRATE}/|$)", text):
        found.append((path if path.count("/") == 2 else path.replace("/", "/specs/"), names(listed)))
    said = [(f"{path}: {name}", defines(path, name)) for path, listed in found for name in listed]
    of_crates = re.findall(rf"`({WORD})` of `(\w+)`", text)
    return said + [(f"{name} of {crate}", crate in CRATES and name in words_of(f"crates/{crate}")) for name, crate in of_crates]


def functions(text: str) -> list:
    found = []
    for owner, name, more in re.findall(r"`(?!crate::)(\w+)::(\w+)[^`]*`((?:, `\w+`)*)", text):
        known = declares if owner[0].islower() else in_type
        found += [(f"{owner}::{one}", known(owner, one)) for one in (name, *names(more))]
    for crate, listed in re.findall(rf"`([a-z0-9]+)`: ({LIST})", text):
        found += [(f"{crate}: {one}", one in words_of(f"crates/{crate}/src")) for one in names(listed) if crate in CRATES]
    return found


def named_edits(text: str) -> list:
    """The edits that a text names. What stands right before an edit is a crate or `must-fail`."""
    found = []
    for before, listed, of in re.findall(rf"((?:[a-z][\w'-]*,? ){{0,3}})({LIST})(?: of `(\w+)`)?", text):
        said = [word.rstrip(",").removesuffix("'s") for word in before.split()]
        crate = of or next((word for word in reversed(said) if word in CRATES), None)
        known = not said or said[-1] in (*CRATES, "must-fail", "edit", "edits", "and")
        for name in names(listed):
            there = with_edit(name)
            if there or "must-fail" in said:
                found.append((f"{before}{name}", known and (crate in there if crate else there != [])))
    return found


def words(text: str) -> list:
    shapes = r"[a-z]\w*_\w+|[a-z]\w*(?:-\w+)+|[A-Za-z][a-z]+[A-Z]\w*"
    codes = re.findall(r"`([^`]+)`", text)
    found = [word for code in codes for word in re.findall(rf"(?<![\w./-]){WORD}(?![\w-])", code) if re.fullmatch(shapes, word)]
    return [(word, word in FOREIGN or word in words_of(*SOURCES)) for word in found]


def statements(text: str) -> list:
    """What is set out, by four blanks; further lines of the same are set in more. A function is one that the library passes on."""
    public = [f"crates/{crate}/src" for crate in re.findall(r"pub use (\w+)::", source("crates/autocrypt/src"))]
    said = re.findall(r"^    (\S.*(?:\n     .*)*)", text, re.MULTILINE)
    return [(one, bare(one) in bare(source(*public) if one.startswith("pub fn") else source("crates"))) for one in said]


def in_list(text: str) -> list:
    """The crates that ARCHITECTURE lists, each with what it is about."""
    return re.findall(r"^- `(\w+)`: ", text.split("\n## The crates\n")[1].split("\n## ")[0], re.MULTILINE)


def arrows(text: str) -> dict:
    """The picture of ARCHITECTURE: each crate with those that arrows lead to. In a line of a box two blanks part crates."""
    boxes = re.findall(r"^\|(.*)\|$", text.split("```text\n")[1].split("```")[0], re.MULTILINE)
    items = [item.partition(" -> ") for line in boxes for item in re.split("  +", line.strip())]
    return {crate: set(used.split(", ")) - {""} for crate, _, used in items}


def needed(text: str) -> dict:
    """What crates.txt says of each crate, of the crates here and without what one of the others uses as well."""
    uses = {crate: set(used.split()) & set(CRATES) for crate, used in re.findall(LISTED, text, re.MULTILINE)}

    @lru_cache(None)
    def below(crate: str) -> set:
        return uses[crate].union(*(below(one) for one in uses[crate]))

    return {crate: used - set().union(*(below(one) for one in used)) for crate, used in uses.items()}


@lru_cache(None)
def bare(text: str) -> str:
    """Without layout, which the formatter of the sources chooses."""
    return re.sub(r",(?=[)}])", "", "".join(text.split()))


class Names(unittest.TestCase):
    def hold(self, found: list, least: int):
        """Each is there; and so many were read, about half of what there was when this was written."""
        self.assertEqual([f"{doc}: {said}" for doc, said, there in found if not there], [])
        self.assertGreaterEqual(len(found), least)

    def read(self, form, least: int):
        self.hold([(doc.name, *said) for doc in DOCS for said in form(prose(doc.read_text()))], least)

    def test_places(self):
        self.read(places, 80)

    def test_parts(self):
        self.read(parts, 150)

    def test_functions(self):
        self.read(functions, 140)

    def test_edits(self):
        self.read(named_edits, 65)

    def test_words(self):
        self.read(words, 350)

    def test_statements(self):
        text = (ROOT / "docs/PROMISES.md").read_text()
        self.hold([("PROMISES.md", *said) for said in statements(text)], 12)

    def test_crates(self):
        text = (ROOT / "docs/ARCHITECTURE.md").read_text()
        used = (ROOT / "crates.txt").read_text()
        self.assertEqual(sorted(in_list(text)), CRATES)
        self.assertEqual(sorted(crate for crate, _ in re.findall(LISTED, used, re.MULTILINE)), CRATES)
        self.assertEqual(arrows(text), needed(used))

    def test_rule(self):
        """Each form, with a name that is there, and with others that are not, or not there where it is said to be."""
        self.assertEqual(in_list("- `no`: x\n\n## The crates\n\n- `slots`: y\n### More\n- `table`: z\n## Other\n- `no`: x\n"), ["slots", "table"])
        picture = "```text\n+-- a box --+\n|  table -> slots, tags   slots -> octets  |\n|  octets    tags |\n+---+\n```\n|  no -> no |\n"
        drawn = {"table": {"slots", "tags"}, "slots": {"octets"}, "octets": set(), "tags": set()}
        self.assertEqual(arrows(picture), drawn)
        self.assertEqual(needed("# a line\noctets:\ntags:\nslots: octets io\ntable staticlib: tags octets slots\n"), drawn)
        for form, right, *wrong in (
            (places, "see `table/specs/Table`", "see `table/specs/Tables`", "see tables/specs/Table", "tests/texts/test_name.py"),
            (parts, "`table/specs/Table: whole`", "`table/specs/Table: hole`", "`slots/specs/Slot: whole`"),
            (parts, "`table/specs/Table`: `whole`", "`table/specs/Table`: `whole`, `hole`"),
            (parts, "`whole` of `table/specs/Table`", "`hole` of `table/specs/Table`"),
            (parts, "`checked`, `whole t` (`table/specs/Table`)", "`hole`, `whole t` (`table/specs/Table`)"),
            (parts, "| table/Table: `checked`, `whole` |", "| table/Table: `checked`, `hole` |", "| tables/Table: `whole` |"),
            (parts, "| table/proofs/Keeping | .. `whole` of `table`", "`hole_of_it` of `table`", "`whole` of `tables`"),
            (functions, "`lookup::check`, `find`", "`lookup::check`, `find_it`", "`lookups::check`", "`slots::check`"),
            (functions, "`Slot::MARK`", "`Slot::MARKS`", "`Slots::MARK`"),
            (functions, "`tokens`: `comment` and `content`", "`tokens`: `comment` and `contents`"),
            (named_edits, "(must-fail `twice_unseen`)", "(must-fail `twice_seen`)", "(must-fail slots `twice_unseen`)"),
            (named_edits, "lookup `twice_unseen`", "slots `twice_unseen`", "lookups `twice_unseen`", "(slots, `twice_unseen`)"),
            (words, "`has_room`, `prefer-encrypt`, `assertEqual`, `HasDirect`", "`has_rooms`", "`applied-entry`", "`hasRoom`", "`HasDirects`"),
            (statements, "    pub fn number(refusal: Refusal) -> u32", "    pub fn number(refusal: Refusal) -> u64"),
        ):
            self.assertTrue(form(right), right)
            self.assertTrue(all(there for said, there in form(right)), right)
            for text in wrong:
                self.assertFalse(all(there for said, there in form(text)), text)


if __name__ == "__main__":
    unittest.main()
