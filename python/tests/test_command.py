"""The command line, as its users call it: answers on standard output, a refusal as one line on standard error and exit
status 1, bad usage as 2."""

import base64
import json
import os
import pty
import re
import subprocess
import sys
from pathlib import Path

import pytest
from commands import INBOX, answer, failure, mailbox_of, run
from letters import EXAMPLES, RECEIPT, letter, table_with

from vienghulac import (
    REFUSALS, FaultKind, Gossip, Table, _command, autocrypt_field, entries, gossip_field, process, target_key,
)  # fmt: skip

ALICE, BOB, CAROL, DAVE = "alice@autocrypt.example", "bob@autocrypt.example", "carol@autocrypt.example", "dave@mail.example"


# import


def test_import_of_the_example(table_file):
    out = answer("import", INBOX, "--table", table_file).decode()
    assert out.splitlines()[0] == "9 messages"
    assert out.splitlines()[1].split() == ["7", "0", "done"]
    assert [line.split(None, 2) for line in out.splitlines()[2:4]] == [["1", "5", REFUSALS[5]], ["1", "6", REFUSALS[6]]]
    assert out.splitlines()[4] == f"{table_file}: 4 of 256 slots used"
    assert [entry.address.decode() for entry in entries(Table.load(table_file))] == [ALICE, BOB, CAROL, DAVE]


def test_import_in_json_goes_on_where_it_stopped(table_file):
    first = json.loads(answer("import", "--json", INBOX, "--table", table_file, "--slots", "8"))
    assert first == {"messages": 9, "answers": {"0": 7, "5": 1, "6": 1}, "slots": 8, "used": 4}
    before = table_file.read_bytes()
    again = json.loads(answer("import", INBOX, INBOX, "--json", "--table", table_file, "--slots", "3"))
    assert again == {"messages": 18, "answers": {"0": 14, "5": 2, "6": 2}, "slots": 8, "used": 4}
    assert table_file.read_bytes() == before


def test_import_asks_for_gossip_G1(table_file, monkeypatch):
    """Payloads are not read yet; whoever reads them one day need not think of the setting."""
    settings = []

    def process_told(table, receipt, outer, payload=b"", gossip=Gossip.UNSET):
        settings.append(gossip)
        process(table, receipt, outer, payload, gossip)

    monkeypatch.setattr(_command, "process", process_told)
    assert _command.main(["import", str(INBOX), "--table", str(table_file)]) == 0
    assert settings == [Gossip.TAKE] * 9


def test_import_of_ten_thousand_messages(table_file, tmp_path):
    """Counts by answer, and each key as its last message brought it."""
    letters, keys, expected = [], {}, {"0": 0, "4": 0, "5": 0, "6": 0, "8": 0}
    for number in range(10_000):
        sender, key = b"s%d@x" % (number % 150), b"%d " % number * 50
        if number % 100 == 7:
            letters.append(b"no field\n\n")
            expected["4"] += 1
        elif number % 100 == 8:
            letters.append(letter(b"a@x, b@x", key))
            expected["5"] += 1
        elif number % 100 == 9:
            letters.append(letter(sender, key, more=b"Content-Type: multipart/report\r\n"))
            expected["6"] += 1
        elif sender in keys or len(keys) < 120:
            letters.append(letter(sender, key))
            keys[sender] = key
            expected["0"] += 1
        else:
            letters.append(letter(sender, key))
            expected["8"] += 1
    mailbox = mailbox_of(tmp_path / "mbox", letters)
    summary = json.loads(answer("import", "--json", mailbox, "--table", table_file, "--slots", "120"))
    assert summary == {"messages": 10_000, "answers": expected, "slots": 120, "used": 120}
    assert {entry.address: bytes(entry.direct_key) for entry in entries(Table.load(table_file))} == keys


def test_receipt_times(table_file, tmp_path):
    mailbox = mailbox_of(tmp_path / "mbox", [letter(b"a@x")])
    answer("import", mailbox, "--table", table_file)
    assert entries(Table.load(table_file))[0].last_seen == 1_600_000_000
    answer("import", mailbox, "--table", table_file, "--receipt", "1700000000")
    assert entries(Table.load(table_file))[0].last_seen == 1_700_000_000
    summary = json.loads(answer("import", "--json", mailbox, "--table", table_file, "--receipt", "253402300800"))
    assert summary["answers"] == {"3": 1}


def test_import_of_a_maildir(table_file, tmp_path):
    for name in ("cur", "new", "tmp"):
        (tmp_path / "mail" / name).mkdir(parents=True)
    for number in range(20):
        (tmp_path / "mail" / ("cur" if number % 2 else "new") / str(number)).write_bytes(letter(b"s%d@x" % number, b"key"))
    summary = json.loads(answer("import", "--json", tmp_path / "mail", "--table", table_file))
    assert summary == {"messages": 20, "answers": {"0": 20}, "slots": 256, "used": 20}


def test_a_failed_import_changes_nothing(imported, tmp_path):
    before = imported.read_bytes()
    (tmp_path / "text").write_bytes(b"Dear diary\n")
    for bad in (tmp_path / "text", tmp_path / "none", tmp_path):
        assert str(bad) in failure(1, "import", INBOX, bad, "--table", imported)
    assert imported.read_bytes() == before
    failure(1, "import", tmp_path / "none", "--table", tmp_path / "new.table")
    failure(1, "import", INBOX, "--table", tmp_path / "no" / "folder")
    assert not (tmp_path / "new.table").exists()
    assert "refused 1" in failure(1, "import", INBOX, "--table", tmp_path / "new.table", "--slots", "257")
    imported.write_bytes(before[:-1])
    assert failure(1, "import", INBOX, "--table", imported) == (
        f"vienghulac: {imported}: refused 1: the table does not have 1 to 256 whole slots\n"
    )
    assert imported.read_bytes() == before[:-1]


def test_a_bar_on_a_terminal_and_none_in_a_pipe(table_file):
    command = [sys.executable, "-m", "vienghulac", "import", str(INBOX), "--table", str(table_file)]
    master, slave = pty.openpty()
    done = subprocess.run(command, stdout=subprocess.PIPE, stderr=slave)
    os.close(slave)
    shown = os.read(master, 10_000)
    os.close(master)
    assert done.returncode == 0 and b"[####" in shown and b"100% " in shown
    assert b"%" not in done.stdout
    assert run(*command[3:]).stderr == b""


# list, recommend, key, field, check


def test_list(imported):
    lines = answer("list", "--table", imported).decode().splitlines()
    assert lines[0].split() == ["address", "last", "seen", "key", "of", "octets", "preference", "gossip", "of", "octets"]
    assert lines[1].split() == [ALICE, "2017-11-07", "13:56:25", "2017-11-07", "13:56:25", "1758", "mutual", "-", "0"]
    assert lines[4].split() == [DAVE, "2017-11-09", "20:10:58", "-", "0", "none", "-", "0"]
    assert len(lines) == 5
    carol = json.loads(answer("list", "--json", "--table", imported))[2]
    assert carol == {
        "slot": 2, "address": CAROL, "display": CAROL, "last_seen": 1_513_792_770, "autocrypt_timestamp": 1_510_133_395,
        "direct_key_length": 1_758, "preference": "none", "gossip_timestamp": None, "gossip_key_length": 0,
    }  # fmt: skip


@pytest.mark.parametrize("encoding", ["utf-8", "ascii"])
def test_an_address_steers_no_terminal(table_file, encoding):
    """Octets of 128 and above may be control characters (a stranger chose them), or no letters at all."""
    table = Table.new(2)
    process(table, RECEIPT, letter("é\u009b31m\u202e@x".encode(), b"key"))
    process(table, RECEIPT, letter(b"\xff\xfe@x", b"key"))
    table.save(table_file)
    out = answer("list", "--table", table_file, env={**os.environ, "PYTHONIOENCODING": encoding}).decode(encoding)
    assert out.splitlines()[1].startswith(("é" if encoding == "utf-8" else "\\xe9") + "\\x9b31m\\u202e@x ")
    assert out.splitlines()[2].startswith("\\xff\\xfe@x ")
    assert json.loads(answer("list", "--json", "--table", table_file))[1]["address"] == "\udcff\udcfe@x"


def test_recommend(imported):
    for words, advice in {
        (DAVE,): "disable",
        (CAROL,): "discourage",
        (ALICE, "--mutual"): "encrypt",
        (f"{ALICE}, Bob <{BOB}>",): "available",
        (CAROL, "--reply"): "encrypt",
    }.items():
        assert answer("recommend", "--table", imported, *words).decode() == advice + "\n"
    for words, advice, number in (
        ((DAVE,), "disable", 1), ((CAROL,), "discourage", 2), ((BOB,), "available", 3), ((BOB, "--mutual"), "encrypt", 4)
    ):  # fmt: skip
        described = json.loads(answer("recommend", "--json", "--table", imported, *words))
        assert described == {"advice": advice, "advice_number": number}
    assert "refused 10" in failure(1, "recommend", "--table", imported, "not a list")


def test_key(imported, tmp_path):
    key = bytes(target_key(Table.load(imported), BOB.encode()))
    assert answer("key", "--table", imported, BOB) == key
    assert answer("key", "--table", imported, f"{ALICE}, {BOB}", "--place", "1") == key
    assert answer("key", "--table", imported, BOB, "--output", tmp_path / "bob.key") == b""
    assert (tmp_path / "bob.key").read_bytes() == key
    described = json.loads(answer("key", "--json", "--table", imported, BOB))
    assert described == {"length": len(key), "key": base64.b64encode(key).decode()}
    both = answer("key", "--json", "--table", imported, BOB, "--output", tmp_path / "both.key")
    assert (json.loads(both), (tmp_path / "both.key").read_bytes()) == (described, key)
    assert "no key" in failure(1, "key", "--table", imported, DAVE)
    assert "no key" in failure(1, "key", "--table", imported, BOB, "--place", "1")
    assert "refused 10" in failure(1, "key", "--table", imported, "not a list")


def test_a_key_that_does_not_fit_is_told_what_to_do():
    for key in (b"", b"k" * 2_049):
        said = failure(1, "field", ALICE, "--key", "-", input=key)
        assert "refused 11" in said and "RSA-4096" in said
    assert "(" not in failure(1, "field", "no address", "--key", "-", input=b"k")  # no hint for 9


def test_an_armored_key_is_no_key(tmp_path):
    key = tmp_path / "alice.asc"
    key.write_bytes(b"-----BEGIN PGP PUBLIC KEY BLOCK-----\n\nmDMEX\n")
    assert f"{key}: the key is armored" in failure(1, "field", ALICE, "--key", key)
    assert "-: the key is armored" in failure(1, "field", ALICE, "--key", "-", input=key.read_bytes())


def test_field(tmp_path):
    key = EXAMPLES / "alice.key"
    octets = key.read_bytes()
    assert answer("field", ALICE, "--key", key, "--mutual") == autocrypt_field(ALICE.encode(), octets, True)
    assert answer("field", ALICE, "--key", key) == autocrypt_field(ALICE.encode(), octets)
    assert answer("field", ALICE, "--key", "-", "--gossip", input=octets) == gossip_field(ALICE.encode(), octets)
    assert answer("field", b"\xc3\x89@X", "--key", key).startswith(b"Autocrypt: addr=\xc3\xa9@x;")
    described = json.loads(answer("field", "a@x", "--key", "-", "--json", input=b"foo"))
    assert described == {"name": "Autocrypt", "value": "addr=a@x; keydata= Zm9v"}
    assert "refused 9" in failure(1, "field", "Alice <a@x>", "--key", key)
    assert "refused 11" in failure(1, "field", ALICE, "--key", INBOX)
    assert "refused 11" in failure(1, "field", ALICE, "--key", "-", input=b"")
    assert "none" in failure(1, "field", ALICE, "--key", tmp_path / "none")


def test_check(imported, tmp_path):
    broken = tmp_path / "broken"
    broken.write_bytes(imported.read_bytes()[:4_392] + b"x" + bytes(4_391))
    assert answer("check", imported).decode() == f"{imported}: 4 of 256 slots used\n"
    done = run("check", imported, broken, INBOX)
    assert done.returncode == 1
    assert done.stdout.decode() == f"{imported}: 4 of 256 slots used\n"
    assert done.stderr.decode().splitlines() == [
        f"vienghulac: {broken}: refused 2: the table has a damaged slot (slot 1)",
        f"vienghulac: {INBOX}: refused 1: the table does not have 1 to 256 whole slots",
    ]
    done = run("check", "--json", broken, tmp_path / "none", imported)
    assert done.returncode == 1 and done.stderr.count(b"\n") == 2
    assert json.loads(done.stdout) == [
        {"file": str(broken), "number": 2, "slot": 1},
        {"file": str(tmp_path / "none"), "number": None, "slot": None},
        {"file": str(imported), "number": 0, "slot": None},
    ]
    failure(1, "check", tmp_path / "none")


# usage


@pytest.mark.parametrize(
    "words",
    [
        (), ("send",), ("list",), ("import", "--table", "t"), ("import", "mbox"), ("recommend", "--table", "t"),
        ("key", "--table", "t", "a@x", "--place", "-1"), ("key", "--table", "t", "a@x", "--place", "one"),
        ("import", "mbox", "--table", "t", "--receipt", "yesterday"), ("field", "a@x"), ("check",), ("list", "--table", "t", "more"),
        ("convert",), ("convert", "--table", "t"), ("check", "t", "--no-wait"),
        ("display",), ("display", "a@x", "b@x"), ("display", "--table", "t", "a@x"),
        ("lint",), ("lint", "a", "b"), ("lint", "--table", "t", "a"), ("lint", "--payload", "a"), ("lint", "-", "--payload", "-"),
        ("key", "--table", "t", "a@x", "--display"), ("key", "--table", "t", "a@x", "--quick"),
        ("recommend", "--quick", "--table", "t"),
        ("field", "a@x", "--key", "k", "--mutual", "--gossip"), ("list", "--table", "t", "--xml"),
    ],
)  # fmt: skip
def test_bad_usage(words):
    assert "usage: vienghulac" in failure(2, *words)


@pytest.mark.parametrize("command", ["import", "list", "recommend", "field", "key", "display", "lint", "check", "convert"])
def test_help(command):
    text = answer(command, "--help").decode()
    assert f"usage: vienghulac {command}" in text and "--json" in text
    assert all(len(line) <= 80 for line in text.splitlines())
    assert command in answer("--help").decode()


def test_help_names_the_keys_of_json(imported):
    """All of them; and none but a refusal's number is called `number`."""
    key, table = EXAMPLES / "alice.key", ("--table", imported)
    for command, *words in (
        ("import", INBOX, *table), ("list", *table), ("recommend", BOB, *table), ("key", BOB, *table),
        ("recommend", "--quick", BOB, *table),
        ("field", ALICE, "--key", key), ("display", ALICE), ("check", imported), ("convert", imported),
        ("lint", EXAMPLES / "outgoing.eml"),
    ):  # fmt: skip
        answered = json.loads(run(command, "--json", *words).stdout)
        keys = set(answered[0] if isinstance(answered, list) else answered)
        text = answer(command, "--help").decode().partition("With --json")[2].partition("positional arguments")[0]
        assert keys and keys <= set(re.findall(r"\w+", text))
        assert ("number" in keys) == (command in ("check", "convert"))


# What the help of a command has to tell beyond its options.
TOLD = {
    "import": [
        "up to and including the first empty line", "'From ' line", "file's time", "--receipt", "no gossip is taken",
        ".NAME.lock", "says so after a second", "with --no-wait it fails at once",
    ],
    "list": ["--display"],
    "recommend": [
        "none behind the first without a key", "as in 'disable 2'", "counted from 1", "it is one less",
        "else the length of the list", "read to its end all the same",
    ],
    "convert": [
        "as renamed, those that hold an entry with another spelling", "as merged, those that became free",
        "only where something changes", "What is refused stays as it is", "with --no-wait such a file fails at once",
    ],
    "lint": [
        "up to and including its first empty line", "An mbox file is refused (4)", "counted from 1", "as it stands there",
        "outer, field 3 (Autocrypt): key data not last or not Base64", "the line is 'no faults', and the exit status 0",
        "as with a refusal", "Recipients are those of To, Cc and Reply-To", *(kind.words for kind in FaultKind),
    ],
    "display": [
        "What is shown can be typed in place of the address", "a label stays as it is where it does not decode",
        "escaped with a backslash", "letters of several scripts look alike", "is refused (9)",
    ],
}  # fmt: skip


@pytest.mark.parametrize("command", TOLD)
def test_help_tells(command):
    text = " ".join(answer(command, "--help").decode().split())
    assert [words for words in TOLD[command] if words not in text] == []


def test_the_console_script_is_the_same():
    script = Path(sys.executable).with_name("vienghulac")
    assert subprocess.run([script, "--help"], capture_output=True, check=True).stdout == answer("--help")
    assert answer("--version").startswith(b"vienghulac 0.")


def test_a_reader_that_leaves_early(imported):
    """`vienghulac list | head -0` is no reason for a traceback."""
    words = [sys.executable, "-m", "vienghulac", "list", "--table", str(imported)]
    reading, writing = os.pipe()
    os.close(reading)
    done = subprocess.run(words, stdout=writing, stderr=subprocess.PIPE)
    os.close(writing)
    assert (done.returncode, done.stderr) == (1, b"")


def test_a_table_whose_owner_is_another_program(table_file):
    """What the package saved, the command reads, and the other way round."""
    table, (key,) = table_with(b"a@x")
    table.save(table_file)
    assert answer("key", "--table", table_file, "a@x") == key
