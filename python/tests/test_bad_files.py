"""Table files that cannot be read, locked or replaced: each is an error of its own in Python, and on the command line one line
and exit status 1. The file stays as it was, and nothing new stands beside it but its lock file."""

import ctypes
import errno
import os
import re
import subprocess
import sys
import time
from pathlib import Path

import pytest
from commands import INBOX, answer, failure
from letters import lock_of, old_table, table_with

from vienghulac import SLOT, Refused, Table, open_table
from vienghulac._command import main
from vienghulac._shared import convert_file


def all_below(folder, path):
    """What stands in a folder, but for the lock file of a table: what each is, and when it was written."""
    found = {}
    for one in sorted(folder.rglob("*")):
        if one != lock_of(path) or not one.is_file() or one.is_symlink():
            status = one.lstat()
            octets = one.read_bytes() if one.is_file() else None
            found[one] = (status.st_ino, status.st_mode, status.st_size, status.st_mtime_ns, octets)
    return found


def good(path):
    table, _ = table_with(b"a@x", b"b@x")
    table.save(path)
    return path


def holding(octets):
    def make(path):
        path.write_bytes(octets)
        return path

    return make


def a_folder(path):
    path.mkdir()
    return path


def a_folder_with_a_table(path):
    path.mkdir()
    good(path / "table")
    return path


def a_link_to_itself(path):
    path.symlink_to(path.name)
    return path


def in_no_folder(path):
    return path / "none" / "table"


def in_a_file(path):
    return good(path) / "table"


def no_path(path):
    return good(path).with_name("n" * 300)


def a_pipe(path):
    os.mkfifo(path)
    return path


def lock_is_a_folder(path):
    lock_of(path).mkdir()
    return good(path)


def lock_is_a_link(path):
    lock_of(path).symlink_to("elsewhere")
    return good(path)


@pytest.fixture
def line_of(capsys):
    """Runs a command that fails: its one line on standard error."""

    def run(*words):
        assert main([str(word) for word in words]) == 1
        out, line = capsys.readouterr()
        assert out == "" and line.startswith("vienghulac: ") and line.count("\n") == 1 and line.endswith("\n")
        return line

    return run


# What stands there, what is raised, and the words of it.
UNREADABLE = [
    (a_folder, IsADirectoryError, "Is a directory"),
    (a_folder_with_a_table, IsADirectoryError, "Is a directory"),
    (a_link_to_itself, OSError, "symbolic links"),
    (in_no_folder, FileNotFoundError, "No such file"),
    (in_a_file, NotADirectoryError, "Not a directory"),
    (no_path, OSError, "File name too long"),
    (holding(b""), Refused, "refused 1:"),
    (holding(bytes(SLOT - 1)), Refused, "refused 1:"),
    (holding(bytes(2 * SLOT + 1)), Refused, "refused 1:"),
    (holding(bytes(257 * SLOT)), Refused, "refused 1:"),
    (holding(bytes(5 * 256 * SLOT)), Refused, "refused 1:"),
    (holding(bytes(SLOT) + b"x" * SLOT), Refused, r"refused 2: .* \(slot 1\)"),
]
UNWRITABLE = [
    *UNREADABLE,
    (a_pipe, OSError, "Not a regular file"),
    (lock_is_a_folder, IsADirectoryError, "The lock file cannot be opened: Is a directory"),
    (lock_is_a_link, OSError, "The lock file cannot be opened: .* symbolic links"),
]


def cases(listed):
    return [pytest.param(*case, id=f"{case[0].__name__}-{number}") for number, case in enumerate(listed)]


@pytest.mark.parametrize("make, kind, words", cases(UNREADABLE))
def test_what_cannot_be_read(table_file, line_of, make, kind, words):
    path = make(table_file)
    before = all_below(table_file.parent, path)
    with pytest.raises(kind, match=words):
        Table.load(path)
    for command in (["list"], ["recommend", "a@x"], ["key", "a@x"]):
        assert path.name in line_of(*command, "--table", path)
    assert path.name in line_of("check", path)
    assert all_below(table_file.parent, path) == before and not os.path.isfile(lock_of(path))


@pytest.mark.parametrize("make, kind, words", cases(UNWRITABLE))
def test_what_cannot_be_changed(table_file, line_of, make, kind, words):
    path = make(table_file)
    before = all_below(table_file.parent, path)
    for wait in (True, False):
        with pytest.raises(kind, match=words):
            with open_table(path, slots=2, wait=wait):
                pytest.fail("a block without a table")
    assert path.name in line_of("import", INBOX, "--table", path)
    assert path.name in line_of("import", INBOX, "--no-wait", "--table", path)
    assert path.name in failure(1, "import", INBOX, "--table", path)
    assert all_below(table_file.parent, path) == before


def no_file(path):
    return path


UNCONVERTED = [*UNREADABLE, (a_pipe, OSError, "Not a regular file"), (no_file, FileNotFoundError, "No such file")]


@pytest.mark.parametrize("make, kind, words", cases(UNCONVERTED))
def test_what_cannot_be_converted(table_file, line_of, make, kind, words):
    """No table is made, and no lock file."""
    path = make(table_file)
    before = all_below(table_file.parent, path)
    with pytest.raises(kind, match=words):
        convert_file(path)
    for more in ((), ("--no-wait",)):
        line = line_of("convert", *more, path)
        assert path.name in line and re.search(words, line)
    assert all_below(table_file.parent, path) == before and not os.path.isfile(lock_of(path))


@pytest.mark.parametrize("make", [lock_is_a_folder, lock_is_a_link])
def test_an_older_table_that_cannot_be_locked(table_file, line_of, make):
    """A table of today is not written, and needs no lock."""
    path = make(table_file)
    assert answer("convert", path)
    path.write_bytes(old_table())
    before = all_below(table_file.parent, path)
    assert "The lock file cannot be opened" in line_of("convert", path)
    assert all_below(table_file.parent, path) == before


@pytest.mark.parametrize("make", [a_folder, in_no_folder, in_a_file, no_path, a_pipe])
def test_no_lock_file_where_no_table_can_be(table_file, make):
    path = make(table_file)
    with pytest.raises(OSError):
        with open_table(path):
            pytest.fail("a block without a table")
    assert not [one for one in table_file.parent.rglob("*") if one.name.endswith(".lock")]


@pytest.mark.parametrize("slots", [0, 257, 2**64])
def test_a_new_table_of_a_bad_length(table_file, line_of, slots):
    with pytest.raises(Refused) as caught:
        with open_table(table_file, slots=slots):
            pytest.fail("a block without a table")
    assert caught.value.number == 1
    assert "refused 1" in line_of("import", INBOX, "--slots", slots, "--table", table_file)
    assert not table_file.exists()


WRONG = [
    dict(path=None), dict(path=1.5), dict(path=7), dict(path=["table"]), dict(slots="7"), dict(slots=None), dict(slots=1.5),
    dict(wait=1), dict(wait=None), dict(wait="no"), dict(waiting=1), dict(waiting="print"),
]  # fmt: skip


@pytest.mark.parametrize("wrong", WRONG, ids=str)
def test_wrong_types(table_file, wrong):
    with pytest.raises(TypeError):
        with open_table(**{"path": table_file, **wrong}):
            pytest.fail("a block without a table")
    assert list(table_file.parent.iterdir()) == []


def test_wrong_values(table_file):
    for wrong in (dict(slots=-1), dict(path="a\0b")):
        with pytest.raises(ValueError):
            with open_table(**{"path": table_file, **wrong}):
                pytest.fail("a block without a table")
    assert list(table_file.parent.iterdir()) == []


# Modes. The superuser passes them by, unless it drops the right to.


def held_to_modes():
    drop, read_and_write, read_and_search = 24, 1, 2  # PR_CAPBSET_DROP, CAP_DAC_OVERRIDE, CAP_DAC_READ_SEARCH
    for right in (read_and_write, read_and_search):
        ctypes.CDLL(None).prctl(drop, right, 0, 0, 0)


CHANGE = """
import sys
from vienghulac import open_table, process
try:
    with open_table(sys.argv[1]) as table:
        process(table, 1, b"From: c@x\\r\\n\\r\\n")
    print("changed")
except OSError as error:
    print(type(error).__name__, error.filename)
"""


def changed(path):
    done = subprocess.run(
        [sys.executable, "-c", CHANGE, path], capture_output=True, text=True, check=True, preexec_fn=held_to_modes,
        env={**os.environ, "PYTHONDONTWRITEBYTECODE": "1"},
    )  # fmt: skip
    return done.stdout.strip()


def test_a_table_that_may_not_be_read(table_file):
    octets = good(table_file).read_bytes()
    table_file.chmod(0)
    assert changed(table_file) == f"PermissionError {table_file}"
    for command in (["list"], ["recommend", "a@x"], ["key", "a@x"], ["import", INBOX]):
        assert "Permission denied" in failure(1, *command, "--table", table_file, preexec_fn=held_to_modes)
    for command in ("check", "convert"):
        assert "Permission denied" in failure(1, command, table_file, preexec_fn=held_to_modes)
    table_file.chmod(0o600)
    assert table_file.read_bytes() == octets
    assert changed(table_file) == "changed"


def test_a_folder_that_may_not_be_written(table_file):
    """With a lock file in it or without."""
    octets = good(table_file).read_bytes()
    table_file.parent.chmod(0o500)
    assert changed(table_file) == f"PermissionError {lock_of(table_file)}"
    words = ("import", INBOX, "--table", table_file)
    assert lock_of(table_file).name in failure(1, *words, preexec_fn=held_to_modes)
    assert not lock_of(table_file).exists()
    lock_of(table_file).touch()
    assert changed(table_file).startswith("PermissionError ")
    assert "Permission denied" in failure(1, *words, preexec_fn=held_to_modes)
    table_file.parent.chmod(0o700)
    assert table_file.read_bytes() == octets
    assert sorted(table_file.parent.iterdir()) == [lock_of(table_file), table_file]


def test_an_older_table_in_a_folder_that_may_not_be_written(table_file):
    """One of today is found up to date there."""
    octets = good(table_file).read_bytes()
    table_file.parent.chmod(0o500)
    assert answer("convert", table_file, preexec_fn=held_to_modes)
    table_file.write_bytes(old_table())
    assert lock_of(table_file).name in failure(1, "convert", table_file, preexec_fn=held_to_modes)
    table_file.parent.chmod(0o700)
    assert table_file.read_bytes() == old_table() != octets
    assert list(table_file.parent.iterdir()) == [table_file]


def test_a_lock_file_that_may_not_be_opened(table_file):
    octets = good(table_file).read_bytes()
    lock_of(table_file).touch()
    lock_of(table_file).chmod(0)
    assert changed(table_file) == f"PermissionError {lock_of(table_file)}"
    line = failure(1, "import", INBOX, "--table", table_file, preexec_fn=held_to_modes)
    assert "The lock file cannot be opened: Permission denied" in line
    assert table_file.read_bytes() == octets


# Files that someone writes in place as they are read, at moments that the test chooses.


def cut(path):
    os.truncate(path, 2 * SLOT)


def grown(path):
    with open(path, "ab") as file:
        file.write(bytes(SLOT))


def emptied(path):
    os.truncate(path, 0)


def later(path):
    """As after a write of the same length, at another time."""
    os.utime(path, (1_000, 1_000))


def mended(path):
    """Behind a cut: all is as it was, the time included."""
    table, time = path.with_name("good").read_bytes(), path.with_name("good").stat().st_mtime_ns
    path.write_bytes(table)
    os.utime(path, ns=(time, time))


def renamed_over(path):
    """What `Table.save` does, which is no harm."""
    Table.new(1).save(path)


@pytest.fixture
def meddle(monkeypatch):
    """Has something done to a file just before its octets are read, behind all that was asked of it, and just after."""

    def meddle(before, after):
        def meddled(path, mode):
            file = open(path, mode)
            read = file.read

            def reading(limit):
                before(Path(path))
                octets = read(limit)
                after(Path(path))
                return octets

            file.read = reading
            return file

        monkeypatch.setattr("vienghulac._files.open", meddled, raising=False)

    return meddle


def nothing(path):
    pass


WRITTEN = [
    (cut, nothing), (grown, nothing), (emptied, nothing), (cut, mended), (nothing, cut), (nothing, grown), (nothing, later),
]  # fmt: skip


@pytest.mark.parametrize("before, after", WRITTEN)
def test_a_file_that_is_written_while_it_is_read(table_file, line_of, meddle, before, after):
    source = good(table_file.with_name("good"))

    def put():
        table_file.write_bytes(source.read_bytes())
        mended(table_file)

    meddle(before, after)
    for act in (Table.load, lambda path: open_table(path).__enter__()):
        put()
        with pytest.raises(OSError, match="The file was written while it was read") as caught:
            act(table_file)
        assert (caught.value.errno, caught.value.filename) == (errno.EBUSY, str(table_file))
    for command in (["list", "--table"], ["recommend", "a@x", "--table"], ["key", "a@x", "--table"],
                    ["import", INBOX, "--table"], ["check"], ["convert"]):  # fmt: skip
        put()
        line = line_of(*command, table_file)
        assert line == f"vienghulac: [Errno 16] The file was written while it was read: '{table_file}'\n"
    assert sorted(table_file.parent.iterdir()) == [lock_of(table_file), table_file, source]


@pytest.mark.parametrize("before, after", [(nothing, nothing), (renamed_over, nothing), (nothing, renamed_over)])
def test_a_file_that_is_replaced_while_it_is_read(table_file, meddle, before, after):
    octets = good(table_file).read_bytes()
    meddle(before, after)
    assert bytes(Table.load(table_file)) == octets


def test_what_is_no_regular_file_may_change_as_it_is_read(table_file, meddle):
    """A table through a pipe, as a shell may pass one."""
    octets, pipe = good(table_file).read_bytes(), a_pipe(table_file.with_name("pipe"))
    writing = os.open(pipe, os.O_RDWR)

    def write(_):
        time.sleep(0.02)  # so that the pipe's time is another
        os.write(writing, octets)
        os.close(writing)

    meddle(write, nothing)
    assert bytes(Table.load(pipe)) == octets
