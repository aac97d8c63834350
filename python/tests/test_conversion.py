"""Table files of older versions: each command refuses them with 2 and names `convert`, which replaces them whole, and
only where something changes (T16 to T20)."""

import fcntl
import itertools
import json
import os
import resource
import subprocess
import sys

import pytest
from cases import Cases
from commands import INBOX, answer, failure, mailbox_of, run, words_of
from letters import CAPITAL, OLD_ENTRIES, OLD_SLOT, RECEIPT, SMALL, letter, lock_of, old_table, table_with
from scope import conversion
from scope.table import Entry, table_of

from vienghulac import SLOT, Refused, Table, _command, _shared, convert, entries

SEED = int(os.environ.get("VIENGHULAC_SEED", "1"))
COUNTS = "3 of 8 slots used, 2 renamed, 1 merged"


@pytest.fixture
def old_file(table_file):
    table_file.write_bytes(old_table())
    return table_file


def state(path):
    """A file that is left alone keeps all of this."""
    status = path.stat()
    return status.st_ino, status.st_mtime_ns, status.st_mode, path.read_bytes()


def beside(path):
    return sorted(other.name for other in path.parent.iterdir() if other != path)


def damaged():
    """Refused by either rule: an old spelling in a slot, and an ASCII capital in a higher one."""
    octets = bytearray(old_table())
    octets[5 * SLOT + 42] = ord("V")
    return bytes(octets)


# The story of an upgrade.


def test_each_command_names_the_conversion_T20(old_file):
    before = state(old_file)
    expected = (
        f"vienghulac: {old_file}: refused 2: the table has a damaged slot (slot {OLD_SLOT}); "
        f"it is of an older version, and `vienghulac convert {old_file}` takes it\n"
    )
    assert failure(1, "check", old_file) == expected
    for words in (["list"], ["recommend", "a@x"], ["key", "a@x"], ["import", INBOX]):
        assert failure(1, *words, "--table", old_file) == expected
    done = run("check", "--json", old_file)
    assert (done.returncode, done.stderr.decode()) == (1, expected)
    assert json.loads(done.stdout) == [{"file": str(old_file), "number": 2, "slot": OLD_SLOT}]
    assert state(old_file) == before and beside(old_file) == [lock_of(old_file).name]  # the lock file is import's


def test_a_conversion_and_what_is_there_afterwards_T17_T18(old_file):
    assert answer("convert", old_file).decode() == f"{old_file}: {COUNTS}\n"
    assert answer("check", old_file).decode() == f"{old_file}: 3 of 8 slots used\n"
    utf8 = {**os.environ, "PYTHONIOENCODING": "utf-8"}
    lines = answer("list", "--table", old_file, env=utf8).decode().splitlines()
    assert [line.split()[0] for line in lines[1:]] == ["alice@a.example", SMALL.decode(), "éva@e.example"]
    assert lines[2].split()[1:] == [
        "2020-09-13", "12:26:45", "2020-09-13", "12:26:30", "5", "mutual", "2020-09-13", "12:26:41", "6",
    ]  # fmt: skip
    assert [entry["slot"] for entry in json.loads(answer("list", "--json", "--table", old_file))] == [1, 2, 5]
    for spelling in (CAPITAL, SMALL, "JÖRG@F.EXAMPLE".encode()):
        assert answer("key", "--table", old_file, spelling) == b"newer"


def test_mail_goes_on_into_the_merged_entry(old_file, tmp_path):
    answer("convert", old_file)
    mailbox = mailbox_of(tmp_path / "mbox", [letter("JÖRG@F.example".encode(), b"newest")])
    summary = json.loads(answer("import", "--json", mailbox, "--table", old_file, "--receipt", str(RECEIPT + 60)))
    assert summary == {"messages": 1, "answers": {"0": 1}, "slots": 8, "used": 3}
    assert answer("key", "--table", old_file, CAPITAL) == b"newest"


def test_in_json(old_file, tmp_path):
    whole = {"file": str(old_file), "number": 0, "slot": None, "slots": 8, "used": 3, "renamed": 2, "merged": 1}
    assert json.loads(answer("convert", "--json", old_file)) == [whole]
    broken, none = tmp_path / "broken", tmp_path / "none"
    broken.write_bytes(damaged())
    done = run("convert", "--json", broken, none, INBOX, old_file)
    left = {"slots": None, "used": None, "renamed": None, "merged": None}
    assert done.returncode == 1 and done.stderr.count(b"\n") == 3
    assert json.loads(done.stdout) == [
        {"file": str(broken), "number": 2, "slot": 5, **left},
        {"file": str(none), "number": None, "slot": None, **left},
        {"file": str(INBOX), "number": 1, "slot": None, **left},
        {**whole, "renamed": 0, "merged": 0},
    ]


# What is left alone.


def test_a_table_of_today_is_not_written_T19(table_file):
    table, _ = table_with(b"a@x", "é@x".encode(), b"\xc3\x89\xff@x")
    table.save(table_file)
    before = state(table_file)
    assert answer("convert", table_file).decode() == f"{table_file}: 3 of 8 slots used, 0 renamed, 0 merged\n"
    assert state(table_file) == before and beside(table_file) == []


def test_twice_is_once_T19(old_file):
    answer("convert", old_file)
    before = state(old_file)
    assert answer("convert", old_file, old_file).decode() == f"{old_file}: 3 of 8 slots used, 0 renamed, 0 merged\n" * 2
    assert state(old_file) == before


def test_what_is_refused_is_left_alone_and_the_others_are_done_R32(old_file, tmp_path):
    broken, short = tmp_path / "broken", tmp_path / "short"
    broken.write_bytes(damaged())
    short.write_bytes(old_table()[:-1])
    before = [state(broken), state(short)]
    done = run("convert", broken, old_file, short, tmp_path / "none")
    assert (done.returncode, done.stdout.decode()) == (1, f"{old_file}: {COUNTS}\n")
    first, second, third = done.stderr.decode().splitlines()
    assert first == f"vienghulac: {broken}: refused 2: the table has a damaged slot (slot 5)"
    assert second == f"vienghulac: {short}: refused 1: the table does not have 1 to 256 whole slots"
    assert third.startswith("vienghulac: ") and str(tmp_path / "none") in third
    assert [state(broken), state(short)] == before
    assert beside(old_file) == sorted([lock_of(old_file).name, "broken", "short"])


def test_no_command_names_a_conversion_that_would_be_refused(table_file):
    table_file.write_bytes(damaged())
    expected = f"vienghulac: {table_file}: refused 2: the table has a damaged slot (slot {OLD_SLOT})\n"
    assert failure(1, "check", table_file) == expected
    for words in (["list"], ["recommend", "a@x"], ["key", "a@x"], ["import", INBOX]):
        assert failure(1, *words, "--table", table_file) == expected
    table_file.write_bytes(old_table()[:-1])
    assert "convert" not in failure(1, "check", table_file)


def test_a_table_through_a_pipe_is_read_once():
    """A second reading would find nothing, or wait. No conversion is named, since a pipe cannot be replaced."""
    for words in (["check", "/dev/stdin"], ["list", "--table", "/dev/stdin"]):
        line = failure(1, *words, input=old_table())
        assert line == f"vienghulac: /dev/stdin: refused 2: the table has a damaged slot (slot {OLD_SLOT})\n"
    failure(1, "convert", "/dev/stdin", input=old_table())


def test_a_name_is_quoted_for_the_shell(tmp_path):
    path = tmp_path / "it's old.table"
    path.write_bytes(old_table())
    command = failure(1, "check", path).split("`")[1]
    assert command.startswith("vienghulac convert ")
    done = subprocess.run(f"{sys.executable} -m {command}", shell=True, capture_output=True, text=True)
    assert (done.returncode, done.stdout, done.stderr) == (0, f"{path}: {COUNTS}\n", "")


# How a file is replaced.


def test_modes_and_links(old_file, tmp_path):
    old_file.chmod(0o640)
    link = tmp_path / "link"
    link.symlink_to(old_file)
    before = old_file.stat()
    assert answer("convert", link).decode() == f"{link}: {COUNTS}\n"
    assert link.is_symlink() and old_file.stat().st_mode == before.st_mode and old_file.stat().st_ino != before.st_ino
    assert old_file.read_bytes() == bytes(convert(old_table()))
    assert beside(old_file) == sorted([lock_of(old_file).name, "link"])


def test_a_full_disk_leaves_the_old_file(old_file):
    before = state(old_file)
    for room in (0, SLOT, 8 * SLOT - 1):
        line = failure(
            1, "convert", old_file, preexec_fn=lambda: resource.setrlimit(resource.RLIMIT_FSIZE, (room, room)),
            env={**os.environ, "PYTHONDONTWRITEBYTECODE": "1"},
        )  # fmt: skip
        assert "File too large" in line
        assert state(old_file) == before and beside(old_file) == [lock_of(old_file).name]


def test_a_lock_that_is_held(old_file, tmp_path):
    """With --no-wait the file fails, and the next one is done; a table of today needs no lock."""
    before = state(old_file)
    (tmp_path / "other").write_bytes(old_table())
    with open(lock_of(old_file), "w") as lock:
        fcntl.flock(lock, fcntl.LOCK_EX)
        done = run("convert", "--no-wait", old_file, tmp_path / "other")
        assert (done.returncode, done.stdout.decode()) == (1, f"{tmp_path / 'other'}: {COUNTS}\n")
        assert done.stderr.decode() == f"vienghulac: {old_file}: another program holds its lock, {lock_of(old_file)}\n"
        assert state(old_file) == before
        described = json.loads(run("convert", "--no-wait", "--json", old_file).stdout)
        assert (described[0]["number"], described[0]["used"]) == (None, None)
        waiting = subprocess.Popen(words_of("convert", old_file), stdout=subprocess.PIPE, stderr=subprocess.PIPE)
        notice = waiting.stderr.readline().decode()
        assert notice == f"vienghulac: waiting for another program, which holds {lock_of(old_file)}\n"
        assert state(old_file) == before
    out, more = waiting.communicate()
    assert (waiting.returncode, out.decode(), more) == (0, f"{old_file}: {COUNTS}\n", b"")
    with open(lock_of(old_file), "w") as lock:
        fcntl.flock(lock, fcntl.LOCK_EX)
        assert answer("convert", "--no-wait", old_file)


def test_another_program_converts_it_first(old_file, monkeypatch):
    """Between the look without the lock and the one with it: what then stands there is not written again."""
    look, found = _shared._converted, []

    def looked(target):
        found.append(look(target))
        if len(found) == 1:
            found[0][1].save(old_file)
        return found[-1]

    monkeypatch.setattr(_shared, "_converted", looked)
    stored, table = _shared.convert_file(old_file)
    assert len(found) == 2 and stored == bytes(table) == old_file.read_bytes()
    assert _command._counted(stored, bytes(table)) == (0, 0)


def test_another_program_spoils_it_first(old_file, monkeypatch):
    look = _shared._converted

    def looked(target):
        found = look(target)
        old_file.write_bytes(damaged())
        return found

    monkeypatch.setattr(_shared, "_converted", looked)
    with pytest.raises(Refused) as caught:
        _shared.convert_file(old_file)
    assert (caught.value.number, caught.value.slot) == (2, 5)
    assert old_file.read_bytes() == damaged()


# The counts.


def test_the_counts_by_entries():
    """A slot is renamed where its entry stays and has another address, merged where its entry has gone."""
    cases, seen = Cases(SEED), set()
    for _ in range(300):
        before = cases.old_held()
        after = conversion.converted(before)
        renamed = sum(a is not None and b is not None and a.address != b.address for a, b in zip(after, before))
        merged = sum(a is None and b is not None for a, b in zip(after, before))
        assert _command._counted(table_of(before), table_of(after)) == (renamed, merged)
        seen.add((renamed > 0, merged > 0))
    assert seen == {(False, False), (False, True), (True, False), (True, True)}


def test_a_group_whose_lowest_slot_has_the_form_is_not_renamed(table_file):
    table_file.write_bytes(table_of([None, *reversed(OLD_ENTRIES)]))
    addresses = [entry.address for entry in reversed(OLD_ENTRIES)]
    assert addresses.index(SMALL) < addresses.index(CAPITAL)
    assert answer("convert", table_file).decode() == f"{table_file}: 3 of 5 slots used, 1 renamed, 1 merged\n"


def test_a_full_table_of_one_person_has_room_afterwards_R8(table_file):
    letters = itertools.product("Àà", "Áá", "Ââ", "Ãã", "Ää", "Åå", "Ææ", "Çç")
    table_file.write_bytes(table_of([Entry(f"{''.join(spelling)}@x".encode(), RECEIPT) for spelling in letters]))
    assert answer("convert", table_file).decode() == f"{table_file}: 1 of 256 slots used, 1 renamed, 255 merged\n"
    assert json.loads(answer("import", "--json", INBOX, "--table", table_file))["used"] == 5
    assert entries(Table.load(table_file))[0].address == "àáâãäåæç@x".encode()
