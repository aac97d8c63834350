"""The calls, through the package, against the independent program; and what the package adds to them."""

import os
import re
import threading

import pytest
from cases import Cases
from letters import MERGED, OLD_SLOT, RECEIPT, ROOT, gossip, letter, old_table, table_with
from mails import GROUP, group_mail
from scope import conversion, processing, recommending
from scope import table as tables

from vienghulac import (
    REFUSALS, SLOT, Advice, Gossip, Refused, Table, check, convert, entries, process, recommend, recommend_quick,
    target_key,
)  # fmt: skip

SEED = int(os.environ.get("VIENGHULAC_SEED", "1"))


def answered(call, *arguments):
    """The number and the slot of a refusal, 0 and 0 for none; and what the call answered."""
    try:
        return 0, 0, call(*arguments)
    except Refused as refused:
        return refused.number, refused.slot or 0, None


def test_check_as_the_independent_program():
    cases, seen = Cases(SEED), set()
    for _ in range(1_000):
        table = cases.table()
        number, slot, _ = answered(check, table)
        assert (number, slot) == tables.check(table)
        seen.add(number)
    assert seen == {0, 1, 2}


def test_convert_as_the_independent_program():
    cases, seen = Cases(SEED), set()
    for _ in range(1_000):
        octets = cases.conversion()
        given = bytearray(octets)
        number, slot, table = answered(convert, octets)
        assert (number, slot, octets if table is None else bytes(table)) == conversion.convert(bytes(given))
        assert octets == given  # no one wrote to what was lent
        seen.add((number, table is not None and bytes(table) != octets))
    assert seen == {(0, False), (0, True), (1, False), (2, False)}


def on_sound_tables(make, many):
    """The cases whose table is one, each with the table made of its octets: no other can be lent through the package."""
    for _ in range(many):
        octets, *rest = make()
        if tables.check(octets) == (0, 0):
            yield octets, Table(octets), *rest


def test_process_as_the_independent_program():
    seen = set()
    for octets, table, receipt, outer, payload, setting in on_sound_tables(Cases(SEED).processing, 4_000):
        setting = Gossip(setting if setting in (1, 2) else 0)
        number, slot, _ = answered(process, table, receipt, outer, payload, setting)
        assert (number, slot, bytes(table)) == processing.process(octets, receipt, outer, payload, setting)
        seen.add(number)
    assert seen == {0, 3, 4, 5, 6, 7, 8}


def test_recommend_and_target_key_as_the_independent_program():
    seen = set()
    for octets, table, recipients, mutual, reply, place in on_sound_tables(Cases(SEED).target, 3_000):
        number, slot, advice = answered(recommend, table, recipients, mutual, reply)
        assert (number, slot, advice or 0) == recommending.recommend(octets, recipients, mutual, reply)
        start, length = recommending.target_key(octets, recipients, mutual, reply, place)
        key = target_key(table, recipients, mutual, reply, place)
        assert (b"" if key is None else bytes(key)) == octets[start : start + length]
        seen.add(advice)
    assert seen == {None, *Advice}


def test_recommend_quick_as_the_independent_program():
    seen = set()
    for octets, table, *asked in on_sound_tables(Cases(SEED).quick, 3_000):
        number, slot, quick = answered(recommend_quick, table, *asked)
        assert (number, slot, *(quick or (0, 0))) == recommending.quick(octets, *asked)
        assert (number, slot, quick and quick.advice) == answered(recommend, table, *asked)
        seen.add(quick and (quick.advice, min(quick.looked_up, 2)))
    assert seen == {None, *((advice, looked_up) for advice in Advice for looked_up in (1, 2))}


def test_entries_as_the_independent_program():
    cases = Cases(SEED)
    for _ in range(300):
        octets = cases.sound_table()
        expected = [(slot, entry) for slot, entry in enumerate(tables.entries(octets)) if entry is not None]
        found = entries(Table(octets))
        assert len(found) == len(expected)
        for mine, (slot, entry) in zip(found, expected):
            assert (mine.slot, mine.address, mine.mutual) == (slot, entry.address, entry.mutual)
            assert (mine.last_seen, mine.autocrypt_timestamp) == (entry.last_seen, entry.autocrypt_timestamp)
            assert (mine.direct_key, mine.gossip_key) == (entry.direct_key, entry.gossip_key)
            assert mine.gossip_timestamp == entry.gossip_timestamp


def test_entries_of_what_is_no_table_any_more():
    """Someone wrote to memory that is not theirs; that is refused here as by every other call."""
    table, _ = table_with(b"a@x", b"b@x")
    table._memory[SLOT] = b"x"
    assert answered(entries, table) == (2, 1, None)


def test_gossip_is_taken_only_where_it_is_asked_for_G1_G2():
    key = b"gossiped"
    outer, payload = letter(b"a@x", more=b"To: b@x\r\n"), gossip((b"b@x", key))
    for setting, expected in (((), None), ((Gossip.UNSET,), None), ((Gossip.TAKE,), key), ((Gossip.SKIP,), None)):
        table = Table.new(2)
        process(table, RECEIPT, outer, payload, *setting)
        assert target_key(table, b"b@x") == expected


def test_a_payload_that_is_not_asked_for_is_not_looked_at_G2_R7():
    outer, without = letter(b"a@x", b"key", more=b"To: b@x\r\n"), Table.new(1)
    process(without, RECEIPT, outer)
    for payload, number in ((b"no field", 7), (b"\n" * 65_537, 7), (gossip((b"b@x", b"gossiped")) * 1_000, 8)):
        for setting in ((), (Gossip.UNSET,), (Gossip.SKIP,)):
            table = Table.new(1)
            process(table, RECEIPT, outer, payload, *setting)
            assert bytes(table) == bytes(without)
        assert answered(process, Table.new(1), RECEIPT, outer, payload, Gossip.TAKE) == (number, 0, None)


def test_group_mail_on_a_telephone_G1_R8():
    """Forty slots, and a hundred mails of five people that tell of strangers."""
    for setting, stored, answers in (((), 5, {0}), ((Gossip.TAKE,), 40, {0, 8})):
        table = Table.new(40)
        seen = {answered(process, table, RECEIPT, outer, payload, *setting)[0] for outer, payload in group_mail()}
        assert (len(entries(table)), seen) == (stored, answers)
        assert {*GROUP} <= {entry.address for entry in entries(table)}


def test_an_older_table_is_refused_until_it_is_converted_T16_T20():
    old = old_table()
    for call in (Table, check):
        assert answered(call, old) == (2, OLD_SLOT, None)
    table = convert(old)
    assert type(table) is Table and table.slots == 8
    assert [(entry.slot, entry.address.decode()) for entry in entries(table)] == [
        (1, "alice@a.example"), (2, "jörg@f.example"), (5, "éva@e.example"),
    ]  # fmt: skip
    merged = entries(table)[1]
    for name, value in vars(MERGED).items():
        assert getattr(merged, name) == value, name
    assert bytes(target_key(table, "JÖRG@F.Example".encode())) == b"newer"


def test_converting_twice_is_converting_once_T19():
    once = convert(old_table())
    assert bytes(convert(bytes(once))) == bytes(once)
    table, _ = table_with(b"a@x", "é@x".encode(), b"\xc3\x89\xff@x")
    assert bytes(convert(bytes(table))) == bytes(table)
    assert bytes(convert(bytes(SLOT))) == bytes(SLOT)


def test_what_no_rule_takes_is_not_converted_R1_R2():
    old, kept = bytearray(old_table()), old_table()
    for octets in (b"", b"x", old[:-1], bytes(257 * SLOT)):
        assert answered(convert, octets) == (1, 0, None)
    old[5 * SLOT + 42] = ord("V")  # in `Éva`: a capital of ASCII stood in no table ever
    assert answered(convert, old) == (2, 5, None)
    old[5 * SLOT + 42] = ord("v")
    assert bytes(old) == kept


def test_one_person_in_each_spelling_L8():
    table = Table.new(3)
    for address in ("jörg@x", "JÖRG@X", "jÖrg@x", "ΆλφΑ@x", "Άλφα@X", "ЁЖ@x", "ёж@x"):
        process(table, RECEIPT, letter(address.encode(), address.encode()))
    assert [entry.address.decode() for entry in entries(table)] == ["jörg@x", "Άλφα@x", "ёж@x"]


def test_numbers_beyond_the_width_are_beyond_the_limit_R3_A7():
    """ctypes would cut them down, to 0 here."""
    table, _ = table_with(b"a@x")
    with pytest.raises(Refused) as caught:
        process(table, 2**64, letter(b"a@x"))
    assert caught.value.number == 3
    assert target_key(table, b"a@x", place=2**64) is None


def test_limit_on_the_receipt_time_R3():
    table = Table.new(1)
    process(table, 253_402_300_799, letter(b"a@x"))
    assert entries(table)[0].last_seen == 253_402_300_799


def test_a_thread_with_the_stack_that_the_header_names():
    """C18: the longest blocks; on a stack of half the size the interpreter would end here."""
    header = (ROOT / "include" / "vienghulac.h").read_text()
    size = int(re.search(r"^#define VIENGHULAC_STACK (\d+)$", header, re.MULTILINE).group(1))
    to = b"To: " + b",".join(b"%x@x" % number for number in range(8_000)) + b"\r\n"
    block, payload = letter(b"a@x", bytes(2_048), more=to), gossip((b"0@x", bytes(2_048)), (b"1@x", b"key")) * 20
    table = Table.new(3)
    before = threading.stack_size(size)
    thread = threading.Thread(target=process, args=(table, RECEIPT, block, payload, Gossip.TAKE))
    thread.start()
    threading.stack_size(before)
    thread.join()
    assert [entry.address for entry in entries(table)] == [b"a@x", b"0@x", b"1@x"]


def test_no_key_is_none_A7():
    table, _ = table_with(b"a@x")
    process(table, RECEIPT, letter(b"b@x"))
    assert target_key(table, b"b@x") is None
    assert target_key(table, b"c@x") is None
    assert target_key(table, b"a@x", place=1) is None
    assert target_key(table, b"no list") is None


def test_new_tables_T13_R1():
    assert Table.new().slots == 256
    assert bytes(Table.new(1)) == bytes(4_392)
    for slots in (0, 257, 2**70):
        with pytest.raises(Refused) as caught:
            Table.new(slots)
        assert caught.value.number == 1


def test_refusals_have_numbers_words_and_a_slot_R33():
    broken = bytes(4_392 * 3) + b"x" + bytes(4_391)
    with pytest.raises(Refused) as caught:
        Table(broken)
    assert (caught.value.number, caught.value.slot) == (2, 3)
    assert str(caught.value) == "refused 2: the table has a damaged slot (slot 3)"
    with pytest.raises(Refused) as caught:
        Table(b"")
    assert (caught.value.number, caught.value.slot) == (1, None)
    assert str(caught.value) == "refused 1: the table does not have 1 to 256 whole slots"
    assert list(REFUSALS) == list(range(1, 13))
