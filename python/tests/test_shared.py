"""One table file and several programs: a block of `open_table` keeps out other threads and other processes, however they end,
and the file is the old table or the new one at every moment."""

import contextlib
import errno
import faulthandler
import gc
import os
import random
import resource
import signal
import subprocess
import sys
import threading
import time
from concurrent.futures import ThreadPoolExecutor

import pytest
from commands import INBOX, answer, failure, mailbox_of, words_of
from letters import RECEIPT, letter, lock_of, table_with

from vienghulac import SLOT, Locked, Refused, Table, _shared, entries, open_table, process

SOON = 10  # seconds that nothing here takes


@pytest.fixture(autouse=True)
def no_waiting_for_ever():
    """A test of locks that goes wrong may wait for ever; it ends the run instead, and says where it stood."""
    faulthandler.dump_traceback_later(120, exit=True)
    yield
    faulthandler.cancel_dump_traceback_later()


@pytest.fixture
def impatient(monkeypatch):
    """Whoever waits says so at once."""
    monkeypatch.setattr(_shared, "_PATIENCE", 0)


@pytest.fixture
def patient(monkeypatch):
    """Whoever waits says so after a minute."""
    monkeypatch.setattr(_shared, "_PATIENCE", 60)


def names_in(folder):
    return sorted(path.name for path in folder.iterdir())


def senders(table_file):
    return {entry.address for entry in entries(Table.load(table_file))}


def add(table_file, *addresses, **more):
    with open_table(table_file, **more) as table:
        for address in addresses:
            process(table, RECEIPT, letter(address, b"key"))


def is_free(table_file):
    try:
        with open_table(table_file, wait=False):
            return True
    except Locked:
        return False


def saved(table_file, *addresses):
    """The octets of a table file that holds these senders."""
    table, _ = table_with(*addresses)
    table.save(table_file)
    return bytes(table)


def started(code, *words):
    """A program that says a word when it is where the test wants it, and goes on when its input ends."""
    program = subprocess.Popen([sys.executable, "-c", code, *words], stdin=subprocess.PIPE, stdout=subprocess.PIPE)
    assert program.stdout.readline() == b"there\n"
    return program


HOLD = """
import sys
from vienghulac import open_table
with open_table(sys.argv[1]):
    print("there", flush=True)
    sys.stdin.read()
"""


# What a block does to the file.


def test_a_new_table_and_then_the_same(table_file):
    with open_table(table_file, slots=4) as table:
        assert table.slots == 4 and not table_file.exists()
        process(table, RECEIPT, letter(b"a@x", b"key"))
        assert not table_file.exists()
    assert table_file.read_bytes() == bytes(table)
    with open_table(str(table_file), slots=9) as again:
        assert bytes(again) == bytes(table)
        process(again, RECEIPT, letter(b"b@x", b"key"))
    assert senders(table_file) == {b"a@x", b"b@x"}
    assert names_in(table_file.parent) == sorted([lock_of(table_file).name, table_file.name])
    with open_table(table_file.with_name("full")) as full:
        assert full.slots == 256


def test_what_is_changed_afterwards_does_not_reach_the_file(table_file):
    with open_table(table_file, slots=4) as table:
        pass
    process(table, RECEIPT, letter(b"a@x", b"key"))
    assert senders(table_file) == set()


@pytest.mark.parametrize("kind", [ValueError, KeyboardInterrupt, SystemExit, StopIteration, GeneratorExit])
@pytest.mark.parametrize("there", [True, False])
def test_an_exception_leaves_the_file(table_file, there, kind):
    before = saved(table_file, b"a@x") if there else None
    with pytest.raises(kind):
        with open_table(table_file) as table:
            process(table, RECEIPT, letter(b"b@x", b"key"))
            raise kind
    assert (table_file.read_bytes() if there else table_file.exists()) == (before if there else False)
    assert is_free(table_file)


def test_a_block_that_is_dropped_leaves_the_file(table_file):
    before = saved(table_file, b"a@x")
    block = open_table(table_file)
    table = block.__enter__()
    process(table, RECEIPT, letter(b"b@x", b"key"))
    assert not is_free(table_file)
    del block
    gc.collect()
    assert is_free(table_file) and table_file.read_bytes() == before


def test_what_is_not_changed_is_not_written(table_file):
    saved(table_file, b"a@x")
    before = table_file.stat()
    with open_table(table_file) as table:
        with pytest.raises(Refused):
            process(table, RECEIPT, b"no field")
    after = table_file.stat()
    assert (after.st_ino, after.st_mtime_ns) == (before.st_ino, before.st_mtime_ns)
    add(table_file, b"b@x")
    assert table_file.stat().st_ino != before.st_ino


def test_all_is_on_the_disk_as_the_block_is_left(table_file, monkeypatch):
    """Also what was found there: whoever wrote it may have been killed before it was."""
    synced = []
    monkeypatch.setattr("os.fsync", lambda descriptor: synced.append(os.readlink(f"/proc/self/fd/{descriptor}")))
    add(table_file, b"a@x", slots=4)
    assert len(synced) == 2 and synced[0].endswith(".new") and synced[1] == str(table_file.parent)
    synced.clear()
    add(table_file)
    assert synced == [str(table_file), str(table_file.parent)]


FILL = """
import sys
from vienghulac import open_table, process
with open_table(sys.argv[1]) as table:
    process(table, 1, b"From: b@x\\r\\n\\r\\n")
"""


def test_a_full_disk_leaves_the_file_and_frees_the_lock(table_file):
    before = saved(table_file, b"a@x")
    full = subprocess.run(
        [sys.executable, "-c", FILL, table_file], capture_output=True, text=True,
        preexec_fn=lambda: resource.setrlimit(resource.RLIMIT_FSIZE, (SLOT, SLOT)),
        env={**os.environ, "PYTHONDONTWRITEBYTECODE": "1"},
    )  # fmt: skip
    assert full.returncode == 1 and "OSError" in full.stderr
    assert table_file.read_bytes() == before and is_free(table_file)
    assert names_in(table_file.parent) == sorted([lock_of(table_file).name, table_file.name])


# Who is kept out.


def test_another_process_is_kept_out(table_file):
    saved(table_file, b"a@x")
    with started(HOLD, table_file) as holder:
        with pytest.raises(Locked) as caught:
            with open_table(table_file, wait=False):
                pytest.fail("two at once")
        assert isinstance(caught.value, BlockingIOError) and caught.value.filename == str(lock_of(table_file))
        assert senders(table_file) == {b"a@x"}  # a reader needs no lock
        holder.stdin.close()
        add(table_file, b"b@x")
    assert holder.returncode == 0 and senders(table_file) == {b"a@x", b"b@x"}


def test_another_thread_is_kept_out(table_file, impatient):
    asked = threading.Event()
    with ThreadPoolExecutor(1) as pool:
        with open_table(table_file, slots=4) as table:
            with pytest.raises(Locked):
                pool.submit(add, table_file, b"c@x", wait=False).result()
            other = pool.submit(add, table_file, b"b@x", waiting=lambda _: asked.set())
            assert asked.wait(SOON) and not other.done()
            process(table, RECEIPT, letter(b"a@x", b"key"))
        other.result(SOON)
    assert senders(table_file) == {b"a@x", b"b@x"}


def test_many_threads_lose_nothing(table_file):
    def work(thread):
        for number in range(8):
            add(table_file, b"s%d@t%d" % (number, thread), slots=64)

    with ThreadPoolExecutor(8) as pool:
        for done in [pool.submit(work, thread) for thread in range(8)]:
            done.result()
    assert senders(table_file) == {b"s%d@t%d" % (number, thread) for number in range(8) for thread in range(8)}


def test_a_block_inside_a_block(table_file, impatient):
    """The same file once more is an error, by whatever name; another file is none."""

    def wait_in_vain(_):
        pytest.fail("a thread that waits for itself")

    link, other = table_file.with_name("link"), table_file.with_name("other")
    link.symlink_to(table_file.name)
    with open_table(table_file, slots=4) as table:
        for name in (table_file, link, os.path.relpath(table_file)):
            with pytest.raises(RuntimeError, match="would wait for itself"):
                with open_table(name, waiting=wait_in_vain):
                    pytest.fail("two at once")
            with pytest.raises(Locked):
                with open_table(name, wait=False):
                    pytest.fail("two at once")
        add(other, b"b@x")
        process(table, RECEIPT, letter(b"a@x", b"key"))
    assert (senders(table_file), senders(other)) == ({b"a@x"}, {b"b@x"})
    add(table_file, b"c@x")
    assert senders(table_file) == {b"a@x", b"c@x"}


def test_a_block_that_is_left_in_another_thread(table_file):
    block = open_table(table_file, slots=4)
    with ThreadPoolExecutor(1) as pool:
        table = pool.submit(block.__enter__).result()
        process(table, RECEIPT, letter(b"a@x", b"key"))
        block.__exit__(None, None, None)
        assert pool.submit(is_free, table_file).result()
    assert senders(table_file) == {b"a@x"}


def test_a_killed_holder_frees_the_lock(table_file, impatient):
    before = saved(table_file, b"a@x")
    asked = threading.Event()
    with started(HOLD, table_file) as holder, ThreadPoolExecutor(1) as pool:
        other = pool.submit(add, table_file, b"b@x", waiting=lambda _: asked.set())
        assert asked.wait(SOON) and not other.done() and table_file.read_bytes() == before
        holder.send_signal(signal.SIGKILL)
        other.result(SOON)
    assert senders(table_file) == {b"a@x", b"b@x"}


def test_links_lead_to_one_lock(table_file):
    """It stands beside the table file, not beside the link, and the link stays."""
    (table_file.parent / "links").mkdir()
    link = table_file.parent / "links" / "link"
    link.symlink_to(f"../{table_file.name}")
    folder = table_file.parent / "links" / "folder"
    folder.symlink_to("..")
    add(link, b"a@x", slots=4)  # the link leads nowhere yet
    assert link.is_symlink() and senders(table_file) == {b"a@x"}
    assert lock_of(table_file).exists() and names_in(link.parent) == ["folder", "link"]
    with open_table(table_file) as table:
        assert not is_free(link) and not is_free(folder / table_file.name)
        process(table, RECEIPT, letter(b"b@x", b"key"))
    assert link.is_symlink() and senders(link) == {b"a@x", b"b@x"}


def test_a_relative_path_is_that_of_the_beginning(table_file, monkeypatch):
    monkeypatch.chdir(table_file.parent)
    with open_table(table_file.name, slots=4) as table:
        process(table, RECEIPT, letter(b"a@x", b"key"))
        monkeypatch.chdir("/")
    assert senders(table_file) == {b"a@x"}


def test_who_may_write_the_table_may_lock_it(table_file):
    add(table_file, b"a@x", slots=4)
    assert lock_of(table_file).stat().st_mode & 0o777 == 0o600
    other = table_file.with_name("other")
    saved(other, b"a@x")
    other.chmod(0o664)
    add(other, b"b@x")
    assert lock_of(other).stat().st_mode & 0o777 == 0o664
    other.chmod(0o600)
    add(other, b"c@x")
    assert lock_of(other).stat().st_mode & 0o777 == 0o664  # as it was made
    lock_of(other).unlink()
    other.chmod(0o444)
    add(other, b"d@x")
    assert lock_of(other).stat().st_mode & 0o777 == 0o644


# The lock file.


def replaced(lock):
    lock.unlink()
    lock.touch()


@pytest.mark.parametrize("change", [os.unlink, replaced])
def test_a_lock_file_that_is_removed_during_the_block(table_file, change):
    before = saved(table_file, b"a@x")
    with pytest.raises(OSError) as caught:
        with open_table(table_file) as table:
            process(table, RECEIPT, letter(b"b@x", b"key"))
            change(lock_of(table_file))
            add(table_file, b"c@x")  # no one keeps this one out
    assert (caught.value.errno, caught.value.filename) == (errno.ESTALE, str(lock_of(table_file)))
    assert senders(table_file) == {b"a@x", b"c@x"} and table_file.read_bytes() != before
    add(table_file, b"d@x")
    assert senders(table_file) == {b"a@x", b"c@x", b"d@x"}


@pytest.mark.parametrize("change", [os.unlink, replaced])
def test_a_lock_file_that_is_removed_while_someone_waits(table_file, impatient, change):
    """The lock of the old file counts for nothing: the one that others will find is waited for."""
    calls, asked, inside, over = [], threading.Event(), threading.Event(), threading.Event()

    def wait():
        def notice(name):
            calls.append(name)
            asked.set()

        with open_table(table_file, waiting=notice):
            inside.set()
            assert over.wait(SOON)

    with started(HOLD, table_file) as holder, ThreadPoolExecutor(1) as pool:
        other = pool.submit(wait)
        assert asked.wait(SOON)
        change(lock_of(table_file))
        with open_table(table_file, wait=False):  # by the new file, while the old one is held
            holder.stdin.close()
            holder.wait()
            assert not inside.wait(0.1)
        assert inside.wait(SOON)
        assert not is_free(table_file)
        over.set()
        other.result(SOON)
    assert calls == [str(lock_of(table_file))]


def test_a_lock_file_that_never_stands(table_file, monkeypatch):
    """On a file system that shows a file under ever new numbers there is no end to trying, but for this."""
    before = saved(table_file, b"a@x")
    monkeypatch.setattr(_shared._LockFile, "stands", lambda lock: False)
    with pytest.raises(OSError) as caught:
        add(table_file, b"b@x")
    assert caught.value.errno == errno.ESTALE
    assert table_file.read_bytes() == before


def test_a_file_system_without_locks(table_file, monkeypatch):
    def no_lock(file, how):
        raise OSError(errno.ENOLCK, os.strerror(errno.ENOLCK))

    before = saved(table_file, b"a@x")
    monkeypatch.setattr(_shared.fcntl, "flock", no_lock)
    with pytest.raises(OSError, match="cannot be locked: No locks available") as caught:
        add(table_file, b"b@x")
    assert caught.value.filename == str(lock_of(table_file)) and table_file.read_bytes() == before


# Waiting.


def open_files():
    return len(os.listdir("/proc/self/fd"))


def test_a_notice_comes_once_and_late(table_file):
    """After a second, with the name of the lock file."""
    calls = []
    with started(HOLD, table_file) as holder:
        began = time.monotonic()

        def notice(name):
            calls.append((name, time.monotonic() - began))
            holder.stdin.close()

        add(table_file, b"a@x", waiting=notice)
    ((name, after),) = calls
    assert name == str(lock_of(table_file)) and after >= 1


def test_no_notice_for_those_who_wait_a_little_or_not_at_all(table_file, patient):
    calls = []
    add(table_file, b"a@x", waiting=calls.append)
    with started(HOLD, table_file) as holder, ThreadPoolExecutor(1) as pool:
        other = pool.submit(add, table_file, b"b@x", waiting=calls.append)
        time.sleep(0.2)
        assert not other.done()
        holder.stdin.close()
        other.result(SOON)
    with open_table(table_file), pytest.raises(Locked):
        add(table_file, b"c@x", wait=False, waiting=calls.append)
    assert calls == [] and senders(table_file) == {b"a@x", b"b@x"}


def test_a_notice_may_end_the_wait(table_file, impatient):
    class Enough(Exception):
        pass

    def notice(_):
        raise Enough

    before = open_files()
    with started(HOLD, table_file) as holder:
        with pytest.raises(Enough):
            add(table_file, b"a@x", waiting=notice)
        holder.stdin.close()
    assert open_files() == before and is_free(table_file)


@pytest.fixture
def alarm():
    """An interrupt, as from the keyboard, after a fifth of a second."""

    def interrupt(*_):
        raise KeyboardInterrupt

    old = signal.signal(signal.SIGALRM, interrupt)
    yield lambda: signal.setitimer(signal.ITIMER_REAL, 0.2)
    signal.setitimer(signal.ITIMER_REAL, 0)
    signal.signal(signal.SIGALRM, old)


@pytest.mark.parametrize("more", [{}, {"waiting": print}], ids=["in the system", "between attempts"])
def test_an_interrupt_ends_the_wait_and_leaves_nothing_behind(table_file, patient, alarm, more):
    before = open_files()
    with started(HOLD, table_file) as holder:
        alarm()
        with pytest.raises(KeyboardInterrupt):
            add(table_file, b"a@x", **more)
        assert not is_free(table_file)
        holder.stdin.close()
    assert open_files() == before
    add(table_file, b"b@x", wait=False)
    assert senders(table_file) == {b"b@x"}


# Forks.


LEAVE = """
import os, sys
from vienghulac import Locked, open_table, process
with open_table(sys.argv[1], slots=4) as table:
    child = os.fork()
    process(table, 1, b"From: child@x\\r\\n\\r\\n" if child == 0 else b"From: parent@x\\r\\n\\r\\n")
    if child:
        _, status = os.waitpid(child, 0)
        assert os.WEXITSTATUS(status) == 1 and not os.path.exists(sys.argv[1])
        try:
            with open_table(sys.argv[1], wait=False):
                print("free")
        except Locked:
            print("held")
"""


def test_a_forked_process_neither_writes_nor_frees(table_file):
    done = subprocess.run([sys.executable, "-c", LEAVE, table_file], capture_output=True, text=True, check=True)
    assert done.stdout == "held\n"
    assert done.stderr.splitlines()[-1].startswith("RuntimeError: the table was opened before a fork")
    assert senders(table_file) == {b"parent@x"}


OUTLIVE = """
import os, signal, sys
from vienghulac import open_table
with open_table(sys.argv[1], slots=4):
    if os.fork() == 0:
        print("there", flush=True)
        os.read(0, 1)
        os._exit(0)
    signal.pause()
"""


def test_a_forked_process_that_outlives_the_holder_does_not_hold(table_file):
    with started(OUTLIVE, table_file) as holder:
        holder.send_signal(signal.SIGKILL)
        holder.wait()
        assert is_free(table_file)


def test_a_copy_of_the_descriptor_does_not_hold(table_file):
    """As a process has one between its fork and the program that it becomes."""
    with open_table(table_file, slots=4):
        copies = [os.dup(lock.fileno()) for lock in _shared._all_open() if not lock.closed]
    assert len(copies) == 1 and is_free(table_file)
    os.close(copies[0])


WAIT = """
import os, sys
from vienghulac import open_table, process
with open_table(sys.argv[1], slots=4) as table:
    child = os.fork()
    if child == 0:
        with open_table(sys.argv[1]) as table:
            process(table, 1, b"From: child@x\\r\\n\\r\\n")
        os._exit(0)
    process(table, 1, b"From: parent@x\\r\\n\\r\\n")
sys.exit(os.waitpid(child, 0)[1])
"""


def test_a_forked_process_waits_as_any_other(table_file):
    subprocess.run([sys.executable, "-c", WAIT, table_file], check=True)
    assert senders(table_file) == {b"parent@x", b"child@x"}


# The command.


def asked(mailbox, table_file):
    """An import that says that it waits."""
    words = words_of("import", mailbox, "--table", table_file)
    one = subprocess.Popen(words, stdout=subprocess.PIPE, stderr=subprocess.PIPE)
    line = one.stderr.readline().decode()
    assert line == f"vienghulac: waiting for another program, which holds {lock_of(table_file)}\n"
    # It says so just before it waits in the system. A signal between the two would be seen only when the lock is free.
    end = time.monotonic() + 1
    while time.monotonic() < end and f" {one.pid} " not in waiting_for_locks():
        time.sleep(0.01)
    return one


def waiting_for_locks():
    """The lines of the system's list of locks that are about programs which wait for one."""
    with open("/proc/locks") as locks:
        return "".join(line for line in locks if "->" in line)


def test_an_import_waits_for_another_program(table_file):
    """It says so once, after a second, and reads the table when it is its turn."""
    began = time.monotonic()
    with open_table(table_file, slots=8):
        one = asked(INBOX, table_file)
        assert one.poll() is None and time.monotonic() - began >= 1
    out, more = one.communicate(timeout=SOON)
    assert (one.returncode, more) == (0, b"") and out.decode().endswith(": 4 of 8 slots used\n")


def test_mail_that_moves_while_an_import_waits(table_file, tmp_path):
    for name in ("cur", "new"):
        (tmp_path / "mail" / name).mkdir(parents=True)
    (tmp_path / "mail" / "new" / "1").write_bytes(letter(b"a@x", b"key"))
    with open_table(table_file):
        one = asked(tmp_path / "mail", table_file)
        (tmp_path / "mail" / "new" / "1").rename(tmp_path / "mail" / "cur" / "1:2,S")
    out, more = one.communicate(timeout=SOON)
    assert (one.returncode, more) == (0, b"") and out.startswith(b"1 messages\n")


def test_an_import_that_is_not_to_wait(imported, tmp_path):
    before = imported.read_bytes()
    words = ("import", mailbox_of(tmp_path / "mbox", [letter(b"a@x", b"key")]), "--no-wait", "--table", imported)
    with open_table(imported):
        line = failure(1, *words, timeout=SOON)
        assert line == f"vienghulac: {imported}: another program holds its lock, {lock_of(imported)}\n"
    assert imported.read_bytes() == before
    assert b"5 of 256" in answer(*words)


def test_an_import_that_is_interrupted_as_it_waits(imported):
    before = imported.read_bytes()
    with open_table(imported):
        one = asked(INBOX, imported)
        one.send_signal(signal.SIGINT)
        assert one.communicate(timeout=SOON) == (b"", b"vienghulac: interrupted\n")
        assert one.returncode == 130
    assert imported.read_bytes() == before
    assert sorted(imported.parent.iterdir()) == [lock_of(imported), imported]
    answer("import", INBOX, "--no-wait", "--table", imported)


def test_readers_do_not_wait(imported):
    with open_table(imported):
        assert b"4 of 256" in answer("check", imported)
        assert len(answer("list", "--table", imported).splitlines()) == 5
        assert answer("recommend", "--table", imported, "bob@autocrypt.example") == b"available\n"
        assert len(answer("key", "--table", imported, "bob@autocrypt.example")) > 0


# All at once.


IMPORTS, SENDERS, LETTERS = 8, 32, 100

IMPORT = """
import contextlib, sys
from vienghulac import _command
open_table = _command.open_table
@contextlib.contextmanager
def telling(*words):
    with open_table(*words) as table:
        print("there", flush=True)
        yield table
_command.open_table = telling
sys.exit(_command.main(sys.argv[1:]))
"""


def watch(table_file, over):
    """Read a file over and over: it is a table, and no sender who was in it is ever missing. How often it was read."""
    known, count = set(), 0
    while not over.is_set():
        with contextlib.suppress(FileNotFoundError):
            found = senders(table_file)
            assert found >= known
            known, count = found, count + 1
        assert not known or table_file.exists()
    return count


def test_imports_at_the_same_time_of_which_some_are_killed(table_file, tmp_path):
    """Whoever is killed is started again. What an import says is done is there, then and at the end."""
    everyone = [{b"s%d@m%d.example" % (number, mailbox) for number in range(SENDERS)} for mailbox in range(IMPORTS)]
    mailboxes = [
        mailbox_of(tmp_path / f"mbox{number}", [letter(sender, b"key") for sender in sorted(own)] * LETTERS)
        for number, own in enumerate(everyone)
    ]

    began = time.monotonic()
    subprocess.run(words_of("import", mailboxes[0], "--table", tmp_path / "other"), stdout=subprocess.DEVNULL, check=True)
    whole = time.monotonic() - began  # what an import takes that is alone

    def is_killed(mailbox, inside, delay):
        """Start an import, and kill it so long after its start, or after it got in. Was it still running?"""
        words = [sys.executable, "-c", IMPORT, "import", mailbox, "--table", table_file]
        with subprocess.Popen(words, stdout=subprocess.PIPE) as one:
            if inside:
                assert one.stdout.readline() == b"there\n"
            time.sleep(delay)
            one.kill()
        assert one.returncode in (0, -signal.SIGKILL)
        return one.returncode != 0

    def work(number):
        """Kill imports of a mailbox before one is left alone. How many were killed that were in already."""
        chance, mailbox, killed = random.Random(number), mailboxes[number], 0
        for turn in range(number % 4):
            is_killed(mailbox, inside=False, delay=chance.uniform(0, whole))
            killed += is_killed(mailbox, inside=True, delay=chance.uniform(0, 2 * whole) if turn else 0)
        subprocess.run(words_of("import", mailbox, "--table", table_file), stdout=subprocess.DEVNULL, check=True)
        assert senders(table_file) >= everyone[number]
        return killed

    over = threading.Event()
    with ThreadPoolExecutor(IMPORTS + 1) as pool:
        watcher = pool.submit(watch, table_file, over)
        try:
            killed = sum(done.result() for done in [pool.submit(work, number) for number in range(IMPORTS)])
        finally:
            over.set()
        assert watcher.result() > 0 and killed > 0
    assert senders(table_file) == set().union(*everyone)
