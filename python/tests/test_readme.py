"""The examples of README.md, run as they stand there; the block behind each says what it prints. And examples/gossip.py."""

import re
import subprocess
import sys

import pytest
from letters import EXAMPLES, ROOT

from vienghulac import REFUSALS, FaultKind

README = (ROOT / "README.md").read_text()


def example(language):
    """An example and what it prints."""
    ((code, printed),) = re.findall(rf"^```{language}\n(.*?)^```\n+```text\n(.*?)^```", README, re.MULTILINE | re.DOTALL)
    return code, printed


def test_python_example(tmp_path):
    code, printed = example("python")
    (tmp_path / "example.py").write_text(code)
    done = subprocess.run([sys.executable, "example.py"], capture_output=True, text=True, check=True, cwd=tmp_path)
    assert done.stdout == printed
    assert (tmp_path / "correspondents.table").exists()


@pytest.mark.parametrize("library", ["libvienghulac.a", "libvienghulac.so"])
def test_c_example(tmp_path, library):
    code, printed = example("c")
    (tmp_path / "example.c").write_text(code)
    build = ROOT / "build"
    compiler = ["gcc", "-std=c11", "-Wall", "-Wextra", "-Werror", "-pedantic"]
    paths = [f"-I{ROOT / 'include'}", "-o", "example", "example.c", build / library, f"-Wl,-rpath,{build}"]
    subprocess.run([*compiler, *paths], check=True, cwd=tmp_path)
    done = subprocess.run(["./example"], capture_output=True, text=True, check=True, cwd=tmp_path)
    assert done.stdout == printed


def run_line(line, folder):
    """A command as it stands there, in a folder with the example files that it names."""
    for name in ("inbox.mbox", "alice.key", "outgoing.eml", "outgoing-payload.eml"):
        (folder / name).write_bytes((EXAMPLES / name).read_bytes())
    command = f"{sys.executable} -m vienghulac {line}"
    return subprocess.run(command, shell=True, capture_output=True, text=True, cwd=folder)


def test_command_line_examples(tmp_path):
    """Each line that opens with `$ vienghulac`. The mail of `lint` has faults."""
    lines = re.findall(r"^    \$ vienghulac (.*)$", README, re.MULTILINE)
    assert len(lines) >= 6
    for line in lines:
        done = run_line(line, tmp_path)
        assert (done.returncode, done.stderr) == (1 if line.startswith("lint ") else 0, ""), line


def test_the_faults_of_the_example_mail(tmp_path):
    """The command of that chapter, and what it prints."""
    ((line, printed),) = re.findall(r"^    vienghulac (lint .*)\n\n((?:    .*\n)+)", README, re.MULTILINE)
    done = run_line(line, tmp_path)
    assert (done.returncode, done.stderr) == (1, "")
    assert [f"    {fault}" for fault in done.stdout.splitlines()] == printed.splitlines()


def test_every_fault_is_in_the_table():
    rows = re.findall(r"^\| (.*?) \| (\d+) \| .+ \|$", README, re.MULTILINE)
    assert [(int(number), words) for words, number in rows] == [(kind.value, kind.words) for kind in FaultKind]


def test_every_refusal_is_in_the_table():
    rows = dict(re.findall(r"^\| (\d+) \| (.*?) \|", README, re.MULTILINE))
    assert {int(number): words for number, words in rows.items()} == REFUSALS


def test_the_example_of_a_reply_to_all_asks_for_gossip_G1():
    """Without gossip there would be no key of Carol's to encrypt it to."""
    done = subprocess.run([sys.executable, EXAMPLES / "gossip.py"], capture_output=True, text=True, check=True)
    assert [" ".join(line.split()) for line in done.stdout.splitlines()] == [
        "alice@autocrypt.example a key of her own",
        "bob@autocrypt.example a key by gossip",
        "carol@autocrypt.example a key by gossip",
        "a new mail to Carol: DISCOURAGE",
        "a reply to this mail: ENCRYPT",
        "the key to encrypt to: 1758 octets",
    ]
