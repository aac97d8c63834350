"""Table files: read whole, replaced whole. A file that is no table is refused and left alone; a full disk or a kill during a
save leaves the old file or the new one, never half."""

import os
import random
import resource
import signal
import subprocess
import sys
import time

import pytest
from letters import EXAMPLES, RECEIPT, letter, table_with

from vienghulac import SLOT, Refused, Table, process, target_key


def others(table_file):
    """What else stands in the folder of a table file."""
    return sorted(path.name for path in table_file.parent.iterdir() if path != table_file)


def test_save_and_load(table_file):
    table, (key,) = table_with(b"a@x")
    table.save(table_file)
    assert table_file.read_bytes() == bytes(table)
    assert others(table_file) == []
    loaded = Table.load(str(table_file))
    assert target_key(loaded, b"a@x") == key


def damaged(octets):
    middle = len(octets) // 2
    yield "truncated", octets[:-1], 1, None
    yield "cut in the middle", octets[: SLOT + 7], 1, None
    yield "empty", b"", 1, None
    yield "one slot too many", bytes(257 * SLOT), 1, None
    yield "far too long", bytes(3 * 256 * SLOT), 1, None
    yield "foreign", (EXAMPLES / "inbox.mbox").read_bytes(), 1, None
    yield "foreign, of a table's length", random.Random(1).randbytes(2 * SLOT), 2, 0
    yield "an octet of a free slot changed", octets[:-1] + b"\1", 2, len(octets) // SLOT - 1
    yield "an octet of the address changed", octets[:40] + b"A" + octets[41:], 2, 0
    yield "a half written over", octets[:middle] + b"\xff" * middle, 2, middle // SLOT


@pytest.mark.parametrize("case", range(len(list(damaged(bytes(8 * SLOT))))))
def test_a_file_that_is_no_table_is_refused_and_left_alone(table_file, case):
    table, _ = table_with(b"a@x", b"b@x")
    _, octets, number, slot = list(damaged(bytes(table)))[case]
    table_file.write_bytes(octets)
    before = table_file.stat()
    with pytest.raises(Refused) as caught:
        Table.load(table_file)
    assert (caught.value.number, caught.value.slot) == (number, slot)
    assert table_file.read_bytes() == octets
    assert table_file.stat().st_mtime_ns == before.st_mtime_ns and others(table_file) == []


def test_errors_of_the_file_system(table_file):
    with pytest.raises(FileNotFoundError):
        Table.load(table_file)
    with pytest.raises(IsADirectoryError):
        Table.load(table_file.parent)
    with pytest.raises(FileNotFoundError):
        Table.new(1).save(table_file / "no" / "folder")
    for wrong in (None, 1.5, [str(table_file)]):
        with pytest.raises(TypeError):
            Table.new(1).save(wrong)
        with pytest.raises(TypeError):
            Table.load(wrong)


def test_a_save_onto_a_folder_leaves_nothing_behind(table_file):
    table_file.mkdir()
    with pytest.raises(OSError):
        Table.new(1).save(table_file)
    assert table_file.is_dir() and others(table_file) == []


def test_modes_and_links(table_file):
    Table.new(1).save(table_file)
    assert table_file.stat().st_mode & 0o777 == 0o600
    table_file.chmod(0o640)
    link = table_file.with_name("link")
    link.symlink_to(table_file)
    Table.new(2).save(link)
    assert link.is_symlink() and len(table_file.read_bytes()) == 2 * SLOT
    assert table_file.stat().st_mode & 0o777 == 0o640


def test_a_relative_path(table_file, monkeypatch):
    monkeypatch.chdir(table_file.parent)
    Table.new(1).save(table_file.name)
    assert Table.load(table_file.name).slots == 1


SAVE = "import sys; from vienghulac import Table; Table.new(int(sys.argv[2])).save(sys.argv[1])"


def test_a_full_disk_leaves_the_old_file(table_file):
    """The limit on a file's length stands for a disk that fills up in the middle of the file."""
    table, _ = table_with(b"a@x")
    table.save(table_file)
    for room in (0, 1, SLOT, 100 * SLOT, 256 * SLOT - 1):
        full = subprocess.run(
            [sys.executable, "-c", SAVE, table_file, "256"],
            preexec_fn=lambda: resource.setrlimit(resource.RLIMIT_FSIZE, (room, room)),
            capture_output=True, text=True, env={**os.environ, "PYTHONDONTWRITEBYTECODE": "1"},
        )  # fmt: skip
        assert full.returncode == 1 and "OSError" in full.stderr
        assert table_file.read_bytes() == bytes(table) and others(table_file) == []
    subprocess.run([sys.executable, "-c", SAVE, table_file, "256"], check=True)
    assert Table.load(table_file).slots == 256


SAVE_FOREVER = """
import sys
from vienghulac import Table
tables = [Table.load(name) for name in sys.argv[2:]]
print("ready", flush=True)
while True:
    for table in tables:
        table.save(sys.argv[1])
"""


def test_a_kill_during_a_save_leaves_the_old_file_or_the_new_one(table_file):
    chance = random.Random(1)
    sources = [table_file.with_name(name) for name in ("one", "two")]
    for number, source in enumerate(sources):
        table = Table.new(256)
        process(table, RECEIPT, letter(b"a@x", b"%d" % number * 100))
        table.save(source)
    whole = [source.read_bytes() for source in sources]
    table_file.write_bytes(whole[0])
    began = time.monotonic()
    table.save(table_file)
    some_saves = max(0.03, 5 * (time.monotonic() - began))
    met, halves = set(), 0
    for _ in range(25):
        saver = subprocess.Popen([sys.executable, "-c", SAVE_FOREVER, table_file, *sources], stdout=subprocess.PIPE)
        saver.stdout.readline()
        time.sleep(chance.uniform(0, some_saves))
        saver.send_signal(signal.SIGKILL)
        saver.wait()
        saver.stdout.close()
        met.add(whole.index(table_file.read_bytes()))
        Table.load(table_file)
        for name in others(table_file):
            if name.endswith(".new"):
                halves += 1
                (table_file.parent / name).unlink()
    assert met == {0, 1}
    assert halves > 0, "no kill fell into a save"
