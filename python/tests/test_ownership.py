"""Ownership: blocks are borrowed for one call, and keys end with the next write. What is lent, changed, freed and
handed out by many threads at once must come out as if each call had been alone."""

import asyncio
import copy
import gc
import itertools
import pickle
import random
import re
import struct
import sys
import threading
import time
from concurrent.futures import ThreadPoolExecutor
from contextlib import contextmanager

import pytest
from letters import RECEIPT, gossip, letter, old_table, table_with

from vienghulac import (
    Gossip, Refused, Table, _library, convert, display, entries, lint, process, recommend, recommend_quick, target_key,
)  # fmt: skip

THREADS = 4


@contextmanager
def meanwhile(action):
    """Run an action over and over in another thread."""
    over = threading.Event()

    def loop():
        while not over.is_set():
            action()

    thread = threading.Thread(target=loop)
    thread.start()
    try:
        yield
    finally:
        over.set()
        thread.join()


def allocate_over(sizes=(200, 400, 1_000, 3_000)):
    """Takes memory as it was just freed, and fills it with mail from someone else."""
    other = letter(b"mallory@m.example", b"M" * 100)
    return [(other * (size // len(other) + 1))[:size] for size in sizes for _ in range(8)]


def in_threads(work, count=THREADS):
    with ThreadPoolExecutor(count) as pool:
        return [future.result() for future in [pool.submit(work, number) for number in range(count)]]


@pytest.fixture
def eager():
    """Another thread runs as soon as a call lets it."""
    interval = sys.getswitchinterval()
    sys.setswitchinterval(1e-6)
    yield
    sys.setswitchinterval(interval)


# So much in a block that a call takes its time.
FILLER = b"".join(b"X-Filler: %08d\r\n" % number for number in range(3_000))


# Blocks: made, handed down and freed at once.


def test_a_hundred_thousand_messages_keep_their_keys():
    """Each entry's key is compared with the message it came from, the block being freed as the call returns."""

    def work(thread):
        chance = random.Random(thread)
        table, senders = Table.new(8), [b"s%d@t%d.example" % (number, thread) for number in range(8)]
        for count in range(100_000 // THREADS):
            sender, key = senders[count % len(senders)], chance.randbytes(chance.randint(1, 400))
            process(table, RECEIPT, letter(sender, key))
            assert target_key(table, sender) == key
        return count + 1

    with meanwhile(allocate_over):
        assert sum(in_threads(work)) == 100_000


def test_gossip_of_freed_payloads():
    table, keys = Table.new(4), {}
    chance = random.Random(1)
    with meanwhile(allocate_over):
        for count in range(2_000):
            keys = {b"b@x": chance.randbytes(300), b"c@x": chance.randbytes(300)}
            process(table, RECEIPT, letter(b"a@x", more=b"To: b@x, c@x\r\n"), gossip(*keys.items()), Gossip.TAKE)
            assert {e.address: e.gossip_key for e in entries(table) if e.gossip_key is not None} == keys


def test_freed_blocks_in_asyncio():
    """Tasks that hand temporary blocks to worker threads, all into one table."""
    table, last = Table.new(64), {}

    async def send(number):
        sender = b"s%d@x" % number
        for turn in range(40):
            key = b"%d of %d " % (turn, number) * 20
            await asyncio.to_thread(process, table, RECEIPT, letter(sender, key))
            last[sender] = key

    async def everyone():
        await asyncio.gather(*(send(number) for number in range(64)))

    with meanwhile(allocate_over):
        asyncio.run(everyone())
    assert {entry.address: bytes(entry.direct_key) for entry in entries(table)} == last


# Blocks: mutable ones are copied, so a change during the call changes nothing.


@pytest.mark.parametrize("lent", [lambda buffer: buffer, memoryview, lambda buffer: memoryview(buffer).toreadonly()])
def test_a_buffer_that_changes_during_the_call(lent, eager):
    """What arrives is one of the two mails that were in the buffer by turns, never one's sender with the other's key."""
    senders = [(b"a@x", b"A" * 300), (b"b@x", b"B" * 300)]
    mails = [letter(sender, key, more=FILLER) for sender, key in senders]
    by_turns = itertools.cycle(mails)
    buffer = bytearray(mails[0])
    block = lent(buffer)

    def change():
        buffer[:] = next(by_turns)

    with meanwhile(change):
        for _ in range(1_000):
            table = Table.new(1)
            process(table, RECEIPT, block)
            (entry,) = entries(table)
            assert (entry.address, entry.direct_key) in senders


@pytest.mark.parametrize("made_of", [Table, convert])
def test_a_table_takes_a_copy_of_its_octets(made_of):
    octets = bytearray(4_392)
    table = made_of(octets)
    octets[:] = b"x" * len(octets)
    octets.clear()
    process(table, RECEIPT, letter(b"a@x"))
    assert len(entries(table)) == 1


@pytest.mark.parametrize("lent", [bytes, bytearray, lambda octets: memoryview(bytearray(octets))])
def test_a_conversion_leaves_what_it_is_given(lent):
    octets, expected = lent(old_table()), bytes(convert(old_table()))
    converted = in_threads(lambda _: bytes(convert(octets)))
    assert converted == [expected] * THREADS and octets == old_table() != expected


def test_a_buffer_that_changes_during_a_conversion(eager):
    """One of the two tables that were in the buffer by turns, never slots of both."""
    tables = [old_table(), bytes(Table.new(8))]
    by_turns, expected = itertools.cycle(tables), [bytes(convert(table)) for table in tables]
    buffer = bytearray(tables[0])

    def change():
        buffer[:] = next(by_turns)

    with meanwhile(change):
        for _ in range(1_000):
            assert bytes(convert(buffer)) in expected


@pytest.mark.parametrize("lent", [bytes, bytearray, lambda octets: memoryview(bytearray(octets))])
def test_what_is_shown_is_a_copy(lent):
    """Each call has an output of its own, so that no other call writes over what was shown."""
    addresses = [lent(b"a%d@XN--NDA.x%d" % (number, number)) for number in range(100)]
    shown = in_threads(lambda _: [display(address) for address in addresses])
    assert shown == [["a{0}@ö.x{0}".format(number).encode() for number in range(100)]] * THREADS
    assert addresses == [b"a%d@XN--NDA.x%d" % (number, number) for number in range(100)]


def test_a_buffer_that_changes_while_it_is_shown(eager):
    by_turns = itertools.cycle([b"a@xn--nda.xn--9ca", b"b@" + b"x" * 63])
    buffer = bytearray(next(by_turns))

    def change():
        buffer[:] = next(by_turns)

    with meanwhile(change):
        for _ in range(1_000):
            assert display(buffer) in ("a@ö.é".encode(), b"b@" + b"x" * 63)


def faulty(number):
    """A mail whose faults, of the kinds 1 and 3 to 5, stand at a place of its own, and a payload with one more there."""
    filler = b"X:\n" * number
    return b"From: a@x\nTo: b@x\n" + filler + b"Autocrypt: x=1\n", filler + b"Autocrypt-Gossip: addr=c@x; keydata=Zg=="


def faults_of(number):
    return [(0, 0, 1), *((0, number + 3, kind) for kind in (3, 4, 5)), (1, number + 1, 7)]


@pytest.mark.parametrize("lent", [bytes, bytearray, lambda octets: memoryview(bytearray(octets))])
def test_faults_are_of_the_mail_that_was_lent(lent):
    """Each call has a list of its own, and leaves what it is given as it was."""
    mails = [[lent(block) for block in faulty(number)] for number in range(100)]
    found = in_threads(lambda _: [lint(*blocks) for blocks in mails])
    assert found == [[faults_of(number) for number in range(100)]] * THREADS
    assert mails == [list(faulty(number)) for number in range(100)]


def test_faults_of_freed_blocks():
    """The blocks are freed as the call returns, and their memory is taken by others meanwhile."""
    with meanwhile(allocate_over):
        for number in range(2_000):
            assert lint(*faulty(number % 700)) == faults_of(number % 700)


@pytest.mark.parametrize("lent", [lambda buffer: buffer, memoryview, lambda buffer: memoryview(buffer).toreadonly()])
def test_a_buffer_that_changes_while_it_is_looked_over(lent, eager):
    """What is looked over is one of the two mails that were there by turns, never one's sender with the other's field."""
    mails = [letter(b"a@x", b"A" * 300, more=FILLER), letter(b"b@x", b"B" * 300, more=FILLER)]
    by_turns, told = itertools.cycle(mails), itertools.cycle([b"Autocrypt-Gossip:", b"x-autocrypt-gossi"])
    buffer, payload = bytearray(mails[0]), bytearray(next(told))
    blocks = lent(buffer), lent(payload)

    def change():
        buffer[:] = next(by_turns)
        payload[:] = next(told)

    with meanwhile(change):
        for _ in range(500):
            try:
                assert lint(*blocks) == [(1, 1, 5), (1, 1, 7)]
            except Refused as refused:  # the second payload has no colon
                assert refused.number == 7


# Keys: views that the next write releases.


def late_uses(view):
    return [
        lambda: bytes(view), lambda: view[0], lambda: view[1:], lambda: len(view), lambda: view.tobytes(), lambda: list(view),
        lambda: hash(view), lambda: memoryview(view), lambda: view.hex(), lambda: view.obj,
    ]  # fmt: skip


def test_late_use_of_a_key_raises():
    table, (key,) = table_with(b"a@x")
    view, entry = target_key(table, b"a@x"), entries(table)[0]
    assert view == key and entry.direct_key == key
    process(table, RECEIPT, letter(b"b@x"))
    for late in (view, entry.direct_key):
        for use in late_uses(late):
            with pytest.raises(ValueError):
                use()
    assert target_key(table, b"a@x") == key


def test_a_key_is_a_copy_of_its_own():
    """A view shows all of the octets that it was made of, and no other view shows the same ones."""
    table, (key,) = table_with(b"a@x")
    views = [target_key(table, b"a@x"), target_key(table, b"a@x"), entries(table)[0].direct_key]
    assert [view.obj for view in views] == [key] * 3
    assert len({id(view.obj) for view in views}) == 3


def test_every_key_handed_out_is_released():
    table, keys = table_with(b"a@x", b"b@x", b"c@x")
    views = [target_key(table, b"a@x, b@x, c@x", place=place) for place in (0, 1, 2, 0, 1, 2)]
    assert views == keys * 2
    process(table, RECEIPT, letter(b"a@x", b"new"))
    for view in views:
        with pytest.raises(ValueError):
            bytes(view)


def test_a_key_goes_on_while_only_reads_happen(table_file):
    table, (key, _) = table_with(b"a@x", b"b@x")
    view = target_key(table, b"a@x")
    recommend(table, b"a@x, b@x")
    recommend_quick(table, b"a@x, b@x, c@x")
    target_key(table, b"b@x")
    entries(table)
    table.save(table_file)
    pickle.dumps(table)
    copy.copy(table)
    bytes(table)
    in_threads(lambda _: [recommend(table, b"a@x") for _ in range(200)])
    assert view == key


def test_a_refused_write_ends_no_key_A11():
    table, (key,) = table_with(b"a@x", slots=1)
    view = target_key(table, b"a@x")
    with pytest.raises(Refused):
        process(table, RECEIPT, letter(b"b@x", b"no room"))
    assert view == key


def test_an_interrupt_behind_the_call_leaves_no_old_key(monkeypatch):
    """The table is written, and the call is broken off before it has come back."""
    table, (key,) = table_with(b"a@x")
    view = target_key(table, b"a@x")
    really = _library.process

    def broken_off(*arguments):
        really(*arguments)
        raise KeyboardInterrupt

    monkeypatch.setattr(_library, "process", broken_off)
    with pytest.raises(KeyboardInterrupt):
        process(table, RECEIPT, letter(b"a@x", b"new"))
    monkeypatch.undo()
    assert view == key
    assert target_key(table, b"a@x") == b"new"
    process(table, RECEIPT, letter(b"a@x", b"newer"))
    with pytest.raises(ValueError):
        bytes(view)


def test_what_was_made_out_of_a_view_keeps_the_old_key():
    table, (key,) = table_with(b"a@x")
    view = target_key(table, b"a@x")
    part, other, pairs = view[10:20], memoryview(view), view.cast("H")
    for turn in range(50):
        process(table, RECEIPT, letter(b"a@x", b"%d" % turn * 50))
        allocate_over()
        assert part == key[10:20] and other == key and pairs.tobytes() == key
    with pytest.raises(ValueError):
        bytes(view)


@pytest.mark.parametrize(
    "hold", [pickle.PickleBuffer, lambda view: struct.iter_unpack("4s", view), lambda view: re.finditer(b".", view)]
)
def test_a_view_whose_buffer_is_held_ends_later(hold):
    """It shows the old key meanwhile; those whose buffer no one holds are released at once."""
    table, (key,) = table_with(b"a@x")
    held = target_key(table, b"a@x"), entries(table)[0].direct_key
    free = target_key(table, b"a@x"), entries(table)[0].direct_key
    holders = [hold(view) for view in held]
    for turn in range(3):
        process(table, RECEIPT, letter(b"a@x", b"%d" % turn))
        assert target_key(table, b"a@x") == b"%d" % turn
        assert [bytes(view) for view in held] == [key, key]
        for view in free:
            with pytest.raises(ValueError):
                bytes(view)
    del holders
    assert [bytes(view) for view in held] == [key, key]
    process(table, RECEIPT, letter(b"a@x", b"last"))
    for view in held:
        with pytest.raises(ValueError):
            bytes(view)


def test_a_view_that_its_holder_released():
    table, (key,) = table_with(b"a@x")
    with target_key(table, b"a@x") as view:
        assert view == key
    assert target_key(table, b"a@x") == key
    process(table, RECEIPT, letter(b"a@x", b"next"))
    assert target_key(table, b"a@x") == b"next"


def test_no_one_writes_through_a_view():
    table, _ = table_with(b"a@x")
    view = target_key(table, b"a@x")
    assert view.readonly and isinstance(view.obj, bytes)
    with pytest.raises(TypeError):
        view[0] = 1


def test_views_are_not_kept():
    """A view that its holder dropped is not held by the table."""
    table, _ = table_with(b"a@x")
    for _ in range(1_000):
        target_key(table, b"a@x")
    gc.collect()
    assert len(table._views) == 0


def test_readers_and_a_writer_at_once():
    """A reader meets a key that was sent, or an error; never other octets."""
    senders = [b"s%d@x" % number for number in range(4)]
    sent = {sender: {b"%d of %s " % (turn, sender) * 60 for turn in range(50)} for sender in senders}
    table = Table.new(4)
    for sender in senders:
        process(table, RECEIPT, letter(sender, min(sent[sender])))
    letters = itertools.cycle([letter(sender, key) for sender in senders for key in sorted(sent[sender])])

    def read(_):
        for count in range(3_000):
            sender = senders[count % 4]
            view = target_key(table, sender)
            try:
                octets = bytes(view)
            except ValueError:
                continue
            assert octets in sent[sender]

    with meanwhile(lambda: process(table, RECEIPT, next(letters))):
        in_threads(read, 2)


# Tables.


def test_two_threads_lose_nothing(eager):
    """Newcomers from both sides, many in one mail: two calls at once would take the same free slots."""
    sides = [[[b"s%d@m%d.t%d" % (number, mail, thread) for number in range(16)] for mail in range(8)] for thread in range(2)]
    keys = {address: b"key of " + address for side in sides for mail in side for address in mail}

    def sent(thread):
        for sender, *others in sides[thread]:
            outer = letter(sender, keys[sender], more=b"To: " + b", ".join(others) + b"\r\n")
            process(table, RECEIPT, outer, gossip(*((address, keys[address]) for address in others)), Gossip.TAKE)

    for _ in range(20):
        table = Table.new(256)
        in_threads(sent, 2)
        assert {entry.address: bytes(entry.direct_key or entry.gossip_key) for entry in entries(table)} == keys


def watch(monkeypatch, watcher):
    """Let a watcher see the memory of the table as each call of the library begins and ends."""
    for name in ("process", "recommend", "recommend_quick", "target_key", "entry"):

        def watched(memory, *rest, call=getattr(_library, name)):
            with watcher(memory):
                return call(memory, *rest)

        monkeypatch.setattr(_library, name, watched)


def test_one_call_at_a_time_on_a_table(monkeypatch):
    table, _ = table_with(b"a@x", slots=1)
    inside, met = [], []

    @contextmanager
    def watcher(memory):
        inside.append(memory)
        time.sleep(0.001)
        met.append(len(inside))
        yield
        inside.pop()

    watch(monkeypatch, watcher)
    calls = [
        lambda: process(table, RECEIPT, letter(b"a@x", b"key")), lambda: recommend(table, b"a@x"),
        lambda: recommend_quick(table, b"a@x"), lambda: target_key(table, b"a@x"), lambda: entries(table),
    ]  # fmt: skip
    in_threads(lambda number: [calls[(number + turn) % len(calls)]() for turn in range(20)])
    assert met == [1] * 20 * THREADS


def test_calls_on_two_tables_run_at_once(monkeypatch):
    tables = [table_with(b"a@x")[0] for _ in range(2)]
    both = threading.Barrier(2, timeout=20)

    @contextmanager
    def watcher(memory):
        both.wait()
        yield

    watch(monkeypatch, watcher)
    in_threads(lambda number: process(tables[number], RECEIPT, letter(b"a@x", b"key")), 2)


@pytest.mark.parametrize(
    "copied", [copy.copy, copy.deepcopy, lambda table: pickle.loads(pickle.dumps(table)), lambda table: Table(bytes(table))]
)
def test_a_copy_shares_nothing(copied):
    table, (key,) = table_with(b"a@x")
    view = target_key(table, b"a@x")
    other = copied(table)
    assert bytes(other) == bytes(table)
    process(other, RECEIPT, letter(b"a@x", b"other"))
    assert view == key and target_key(table, b"a@x") == key
    other_view = target_key(other, b"a@x")
    process(table, RECEIPT, letter(b"a@x", b"this"))
    assert other_view == b"other"
    with pytest.raises(ValueError):
        bytes(view)


def test_a_dropped_table_leaves_its_views():
    table, (key,) = table_with(b"a@x")
    view, found = target_key(table, b"a@x"), entries(table)
    del table
    gc.collect()
    allocate_over()
    assert view == key and found[0].direct_key == key


def test_tables_pickled_and_dropped_while_written():
    table, keys = table_with(b"a@x")
    keys += [b"one" * 200, b"two" * 200]
    letters = itertools.cycle([letter(b"a@x", key) for key in keys])
    with meanwhile(lambda: process(table, RECEIPT, next(letters))):
        for _ in range(500):
            other = pickle.loads(pickle.dumps(table))
            assert bytes(target_key(other, b"a@x")) in keys
            del other
