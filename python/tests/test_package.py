"""The wheel as a package: what it holds, where it runs, and that it installs with neither compiler nor network."""

import importlib.metadata
import inspect
import platform
import re
import subprocess
import sys
import zipfile
from pathlib import Path

from letters import ROOT

import vienghulac
from vienghulac import Fault, FaultKind, Gossip, _library

PACKAGE = Path(vienghulac.__file__).parent
LIBRARY = PACKAGE / "libvienghulac.so"
WHEELS = list((ROOT / "build" / "wheel").glob("*.whl"))
MYPY = ["/usr/bin/mypy", "--strict", "--cache-dir=/dev/null"]  # no file in the tree


def output(*words, **more):
    return subprocess.run(words, capture_output=True, text=True, check=True, **more).stdout


def test_the_tests_run_on_what_is_installed():
    assert PACKAGE.is_relative_to(sys.prefix) and sys.prefix != sys.base_prefix
    assert not PACKAGE.is_relative_to(ROOT / "python")


def test_everything_public_is_listed_and_documented():
    assert vienghulac.__all__ == sorted(vienghulac.__all__)
    public = {name for name in vars(vienghulac) if not name.startswith("_")}
    assert public == set(vienghulac.__all__)
    assert vienghulac.__doc__
    for name in vienghulac.__all__:
        thing = getattr(vienghulac, name)
        if inspect.isclass(thing) or inspect.isfunction(thing):
            assert thing.__doc__, name
    for method in (vienghulac.Table.new, vienghulac.Table.load, vienghulac.Table.save):
        assert method.__doc__


def test_nothing_public_has_gone():
    """What version 0.6 had, a program may still name."""
    older = "Advice Entry FieldValue Gossip Locked Octets QuickAdvice REFUSALS Refused SLOT SLOTS Table autocrypt_field"
    older += " autocrypt_header check convert display entries gossip_field gossip_header open_table process recommend"
    older += " recommend_quick target_key"
    assert set(vienghulac.__all__) == {*older.split(), "Block", "Fault", "FaultKind", "lint"}


def test_the_words_of_a_version():
    declared = re.search(r'^version = "(.*)"$', (ROOT / "python" / "pyproject.toml").read_text(), re.MULTILINE)
    assert importlib.metadata.version("vienghulac") == declared.group(1)
    assert importlib.metadata.requires("vienghulac") is None


def test_the_wheel_is_for_any_python_on_this_machine():
    (wheel,) = WHEELS
    tag = f"py3-none-manylinux_2_17_{platform.machine()}"
    assert wheel.name == f"vienghulac-{importlib.metadata.version('vienghulac')}-{tag}.whl"
    with zipfile.ZipFile(wheel) as archive:
        (described,) = [name for name in archive.namelist() if name.endswith(".dist-info/WHEEL")]
        text = archive.read(described).decode()
        assert f"Tag: {tag}\n" in text and "Root-Is-Purelib: false\n" in text
        assert {"vienghulac/py.typed", "vienghulac/libvienghulac.so"} <= set(archive.namelist())
        assert archive.read("vienghulac/libvienghulac.so") == (ROOT / "build" / "libvienghulac.so").read_bytes()


def test_the_library_needs_no_more_than_the_tag_says():
    """Of the C library alone, and of no version above 2.17."""
    dynamic = output("readelf", "--dynamic", "--wide", LIBRARY)
    assert set(re.findall(r"\(NEEDED\).*\[(.*)\]", dynamic)) <= {"libc.so.6"}
    versions = re.findall(r"GLIBC_([0-9.]+)", output("readelf", "--version-info", "--wide", LIBRARY))
    assert all(tuple(map(int, version.split("."))) <= (2, 17) for version in versions)


def test_the_library_calls_nothing_but_memory_functions():
    symbols = output("readelf", "--dyn-syms", "--wide", LIBRARY)
    assert set(re.findall(r"GLOBAL\s+DEFAULT\s+UND\s+(\w+)", symbols)) == {"memcpy", "memset"}


def test_the_library_has_the_functions_of_the_header():
    header = (ROOT / "include" / "vienghulac.h").read_text()
    declared = set(re.findall(r"^vienghulac_\w+ (vienghulac_\w+)\(", header, re.MULTILINE))
    assert len(declared) == 11
    symbols = output("readelf", "--dyn-syms", "--wide", LIBRARY)
    exported = set(re.findall(r"FUNC\s+GLOBAL\s+DEFAULT\s+\d+\s+(\w+)\n", symbols))
    assert exported == declared


def test_an_entry_is_read_as_the_header_declares_it():
    header = (ROOT / "include" / "vienghulac.h").read_text()
    (members,) = re.findall(r"^typedef struct \{([^{}]*)\} vienghulac_numbers;", header, re.MULTILINE)
    assert re.findall(r"^    uint64_t (\w+);", members, re.MULTILINE) == [name for name, _ in _library.Numbers._fields_]
    defined = dict(re.findall(r"^#define VIENGHULAC_(NUMBERS|BIT_\w+) (\d+)$", header, re.MULTILINE))
    assert len(defined) == 5
    assert {name: getattr(_library, name) for name in defined} == {name: int(value) for name, value in defined.items()}


def test_there_is_as_much_room_as_the_header_says_W6_W11_O11():
    header = (ROOT / "include" / "vienghulac.h").read_text()
    defined = dict(re.findall(r"^#define VIENGHULAC_(FIELD|DISPLAY|FAULTS) (\d+)$", header, re.MULTILINE))
    assert {name: int(many) for name, many in defined.items()} == {"FIELD": 3_200, "DISPLAY": 1_024, "FAULTS": 32_768}
    assert (_library.FIELD, _library.DISPLAY, _library.FAULTS) == (3_200, 1_024, 32_768)


def test_faults_are_read_as_the_header_declares_them_O2_O3():
    header = (ROOT / "include" / "vienghulac.h").read_text()
    for struct, names in (("fault", Fault._fields), ("linted", [name for name, _ in _library.Linted._fields_])):
        (members,) = re.findall(rf"^typedef struct \{{([^{{}}]*)\}} vienghulac_{struct};", header, re.MULTILINE)
        assert re.findall(r"^    uint32_t (\w+);", members, re.MULTILINE) == list(names)
    kinds = re.findall(r"^#define VIENGHULAC_FAULT_(\w+) (\d+) +/\* (.*) \*/$", header, re.MULTILINE)
    assert [(name, int(number), words) for name, number, words in kinds] == [
        (kind.name, kind.value, kind.words) for kind in FaultKind
    ]


def test_the_gossip_setting_has_the_numbers_of_the_header_G1():
    header = (ROOT / "include" / "vienghulac.h").read_text()
    defined = dict(re.findall(r"^#define VIENGHULAC_GOSSIP_(\w+) (\d+)$", header, re.MULTILINE))
    assert {name: int(value) for name, value in defined.items()} == {one.name: one.value for one in Gossip}
    assert (Gossip.UNSET, Gossip.TAKE, Gossip.SKIP) == (0, 1, 2)


def test_a_new_environment_without_compiler_and_network(tmp_path):
    """Nothing but the interpreter and the file: no path to search for tools, no index to ask, no other package to see."""
    output("/usr/bin/python3", "-m", "venv", tmp_path / "venv")
    python = tmp_path / "venv" / "bin" / "python"
    output(python, "-m", "pip", "install", "--no-index", *WHEELS, env={"PATH": ""}, cwd=tmp_path)
    table, inbox = tmp_path / "table", ROOT / "examples" / "inbox.mbox"
    for words in ([python, "-m", "vienghulac"], [python.with_name("vienghulac")]):
        assert output(*words, "import", inbox, "--table", table, env={}, cwd=tmp_path).startswith("9 messages\n")
        assert output(*words, "recommend", "--table", table, "bob@autocrypt.example", env={}, cwd=tmp_path) == "available\n"


def test_the_package_is_strictly_typed():
    output(*MYPY, "--python-version", "3.9", ROOT / "python" / "src" / "vienghulac", cwd=ROOT / "python")


USER = """
from typing import Optional
from vienghulac import (
    Advice, Block, Fault, FaultKind, QuickAdvice, Table, autocrypt_header, convert, display, lint, open_table, process,
    recommend, recommend_quick, target_key,
)

table: Table = Table.new(slots=4)
older: Table = convert(bytearray(bytes(table)))
process(table, 0, b"From: a@x")
advice: Advice = recommend(table, bytearray(b"a@x"), mutual=True)
quick: QuickAdvice = recommend_quick(table, bytearray(b"a@x"), mutual=True)
advice, looked_up = quick
at: int = looked_up - 1
key: Optional[memoryview] = target_key(table, memoryview(b"a@x"))
name, value = autocrypt_header(b"a@x", b"key")
text: str = name + value
shown: str = display(bytearray(b"a@x")).decode()
faults: list[Fault] = lint(bytearray(b"From: a@x"), memoryview(b""))
for block, place, kind in lint(b"From: a@x"):
    told: tuple[Block, int, FaultKind, str] = block, place, kind, block.words + kind.words
with open_table("correspondents.table", slots=4, waiting=print) as shared:
    process(shared, 0, b"From: a@x")
"""


def test_its_users_are_checked_too(tmp_path):
    """A program that uses the types as they are passes, one that does not fails."""
    words = [*MYPY, "--python-executable", sys.executable]
    (tmp_path / "good.py").write_text(USER)
    output(*words, "good.py", cwd=tmp_path)
    wrong = ["recommend(table, 'a@x')", "bytes(target_key(table, b'a@x'))", "open_table('t').slots", "convert(table)"]
    wrong += ["display('a@x')", "text = display(b'a@x')"]
    wrong += ["lint('From: a@x')", "lint(b'', None)", "faults[0].place = 2", "text = faults[0].kind"]
    wrong += ["recommend_quick(table, 'a@x')", "advice = recommend_quick(table, b'a@x')", "quick.looked_up = 2"]
    (tmp_path / "bad.py").write_text(USER + "\n".join(wrong) + "\n")
    bad = subprocess.run([*words, "bad.py"], capture_output=True, text=True, cwd=tmp_path)
    assert bad.returncode == 1 and "Found 13 errors" in bad.stdout
