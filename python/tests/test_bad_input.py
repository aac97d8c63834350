"""Wrong types and values: each is an error of its own before anything is handed down, and nothing is changed."""

import array

import pytest
from letters import RECEIPT, letter, old_table, table_with

from vienghulac import (
    Gossip, Refused, Table, autocrypt_field, autocrypt_header, check, convert, display, entries, gossip_field,
    gossip_header, lint, process, recommend, recommend_quick, target_key,
)  # fmt: skip

LIST = b"a@x"

# Each call with every argument good, and which arguments are octets, numbers, truth values.
CALLS = [
    (process, dict(receipt=RECEIPT, outer=letter(b"a@x"), payload=b"", gossip=Gossip.TAKE)),
    (recommend, dict(recipients=LIST, mutual=True, reply=False)),
    (recommend_quick, dict(recipients=LIST, mutual=True, reply=False)),
    (target_key, dict(recipients=LIST, mutual=True, reply=False, place=0)),
    (autocrypt_field, dict(address=LIST, key=b"k", mutual=True)),
    (autocrypt_header, dict(address=LIST, key=b"k", mutual=True)),
    (gossip_field, dict(address=LIST, key=b"k")),
    (gossip_header, dict(address=LIST, key=b"k")),
    (display, dict(address=LIST)),
    (lint, dict(outer=letter(b"a@x"), payload=b"")),
    (check, dict(table=bytes(4_392))),
    (convert, dict(table=bytes(4_392))),
    (Table, dict(table=bytes(4_392))),
    (Table.new, dict(slots=1)),
]

WRONG = {
    "octets": ["text", None, 7, 1.5, [1, 2], (b"a",), array.array("B", b"a@x"), True],
    "number": ["7", None, 1.5, b"7", [7]],
    "truth": [0, 1, None, "no", b"", 1.0],
    "gossip": [1, 0, None, True, "take", b"take"],
}

KINDS = {"receipt": "number", "place": "number", "slots": "number", "mutual": "truth", "reply": "truth", "gossip": "gossip"}


def on_tables(call):
    return call in (process, recommend, recommend_quick, target_key)


def cases():
    for call, good in CALLS:
        for name in good:
            for wrong in WRONG[KINDS.get(name, "octets")]:
                yield pytest.param(call, {**good, name: wrong}, id=f"{call.__qualname__}-{name}-{wrong!r:.12}")


@pytest.mark.parametrize("call, arguments", cases())
def test_wrong_types(call, arguments):
    table, _ = table_with(b"a@x")
    before = bytes(table)
    with pytest.raises(TypeError):
        call(table, **arguments) if on_tables(call) else call(**arguments)
    assert bytes(table) == before


@pytest.mark.parametrize("call", [process, recommend, recommend_quick, target_key, entries])
@pytest.mark.parametrize("wrong", [None, bytes(4_392), "table", 0])
def test_wrong_tables(call, wrong):
    good = dict(CALLS).get(call, {})
    with pytest.raises(TypeError):
        call(wrong, **good)


@pytest.mark.parametrize("call, name", [(process, "receipt"), (target_key, "place"), (Table.new, "slots")])
def test_numbers_below_0(call, name):
    table, _ = table_with(b"a@x")
    arguments = {**dict(CALLS)[call], name: -1}
    with pytest.raises(ValueError):
        call(table, **arguments) if on_tables(call) else call(**arguments)


def test_missing_and_surplus_arguments():
    table, _ = table_with(b"a@x")
    for call in (
        lambda: process(table), lambda: recommend(table, LIST, True, True, 1), lambda: autocrypt_field(LIST),
        lambda: display(), lambda: display(LIST, LIST), lambda: recommend_quick(table), lambda: lint(),
        lambda: lint(b"From: a@x", b"", b""),
        lambda: recommend_quick(table, LIST, True, True, 1),
    ):  # fmt: skip
        with pytest.raises(TypeError):
            call()


@pytest.mark.parametrize("kind", [bytes, bytearray, memoryview, lambda octets: memoryview(bytearray(octets))])
def test_every_kind_of_octets(kind):
    table = Table(kind(bytes(4_392)))
    process(table, RECEIPT, kind(letter(b"a@x", b"key")), kind(b""))
    assert recommend(table, kind(b"a@x")).name == "AVAILABLE"
    assert recommend_quick(table, kind(b"a@x, b@x, a@x")) == recommend_quick(table, b"a@x, b@x, a@x") == (1, 2)
    assert target_key(table, kind(b"a@x")) == b"key"
    assert autocrypt_field(kind(b"a@x"), kind(b"foo")) == b"Autocrypt: addr=a@x; keydata=\r\n Zm9v\r\n"
    assert display(kind(b"A@xn--nda")) == "a@ö".encode()
    assert lint(kind(letter(b"a@x", b"key"))) == [] == lint(kind(letter(b"a@x", b"key")), kind(b""))
    assert lint(kind(letter(b"a@x")), kind(b"Autocrypt-Gossip:")) == [(0, 0, 1), (1, 1, 5), (1, 1, 7)]
    assert bytes(convert(kind(old_table()))) == bytes(convert(old_table()))


def test_a_view_with_gaps_lends_the_octets_it_shows():
    spread = bytes(octet for pair in zip(b"a@x.example", b"-----------") for octet in pair)
    assert b"addr=a@x.example;" in autocrypt_field(memoryview(spread)[::2], b"foo")
    assert display(memoryview(spread)[::2]) == b"a@x.example"
    mail = bytes(octet for pair in zip(letter(b"a@x", b"key"), b"\n" * 100) for octet in pair)
    assert lint(memoryview(mail)[::2]) == []


@pytest.mark.parametrize("base", [bytes, bytearray])
def test_a_class_that_lies_about_its_length(base):
    """What is lent is what the memory holds, not what the object says of itself."""

    class Liar(base):
        def __len__(self):
            return 1_000_000

        def __bytes__(self):
            return b"mallory@m.example"

        def copy(self):
            return bytearray(b"mallory@m.example")

    assert autocrypt_field(Liar(b"a@x"), Liar(b"foo")) == autocrypt_field(b"a@x", b"foo")
    assert display(Liar(b"a@x")) == b"a@x"
    assert lint(Liar(letter(b"a@x", b"key")), Liar(b"Autocrypt-Gossip:")) == [(1, 1, 5), (1, 1, 7)]
    assert bytes(convert(Liar(old_table()))) == bytes(convert(old_table()))
    told, plain = Table(Liar(bytes(4_392 * 2))), Table.new(2)
    outer, payload = letter(b"a@x", b"key", more=b"To: b@x\r\n"), gossip_field(b"b@x", b"gossiped")
    process(told, RECEIPT, Liar(outer), Liar(payload), Gossip.TAKE)
    process(plain, RECEIPT, outer, payload, Gossip.TAKE)
    assert bytes(told) == bytes(plain) and len(entries(told)) == 2
    assert recommend(told, Liar(b"a@x, b@x")) == recommend(told, b"a@x, b@x")
    assert recommend_quick(told, Liar(b"a@x, b@x")) == recommend_quick(told, b"a@x, b@x")
    assert target_key(told, Liar(b"a@x")) == b"key"


def test_what_counts_as_a_number():
    """A number that is no int, as other packages have them, is taken for the int that it says it is."""

    class Number:
        def __init__(self, value):
            self.value = value

        def __index__(self):
            return self.value

    table = Table.new(Number(1))
    process(table, Number(RECEIPT), letter(b"a@x", b"key"))
    assert (table.slots, entries(table)[0].last_seen) == (1, RECEIPT)
    assert target_key(table, b"a@x", place=Number(0)) == b"key"
    for call in (lambda n: process(table, n, letter(b"a@x")), lambda n: target_key(table, LIST, place=n), Table.new):
        with pytest.raises(ValueError):
            call(Number(-1))
    with pytest.raises(Refused):
        process(table, Number(2**64), letter(b"a@x"))
    assert target_key(table, b"a@x", place=Number(2**64)) is None


def test_a_subclass_of_a_table_is_one():
    class Named(Table):
        name = "correspondents"

    table = Named.new(1)
    process(table, RECEIPT, letter(b"a@x", b"key"))
    assert recommend(table, b"a@x").name == "AVAILABLE" == recommend_quick(table, b"a@x").advice.name
    assert target_key(table, b"a@x") == b"key" == entries(table)[0].direct_key


def test_a_released_view_is_no_octets():
    view = memoryview(b"a@x")
    view.release()
    for call in (
        lambda: autocrypt_field(view, b"foo"), lambda: display(view), lambda: lint(view), lambda: lint(LIST, view),
    ):  # fmt: skip
        with pytest.raises(ValueError):
            call()


def test_refusals_of_each_call_R31_R32():
    table, _ = table_with(b"a@x", slots=1)
    before = bytes(table)
    from_a = letter(b"a@x")
    for number, arguments in {
        3: (253_402_300_800, from_a),
        4: (RECEIPT, b"no field\r\n"),
        5: (RECEIPT, from_a[:-2] + from_a),
        6: (RECEIPT, letter(b"a@x", more=b"Content-Type: Multipart/Report; x=y\r\n")),
        7: (RECEIPT, from_a, b"no field", Gossip.TAKE),
        8: (RECEIPT, letter(b"b@x", b"key")),
    }.items():
        with pytest.raises(Refused) as caught:
            process(table, *arguments)
        assert (caught.value.number, caught.value.slot) == (number, None)
        assert bytes(table) == before
    for call in (recommend, recommend_quick):
        for recipients in (b"", b"a@x,", b",".join([b"a@x"] * 101)):
            with pytest.raises(Refused) as caught:
                call(table, recipients)
            assert (caught.value.number, caught.value.slot) == (10, None)
    for write in (autocrypt_field, gossip_field, autocrypt_header, gossip_header):
        for number, arguments in {9: (b"<a@x>", b"key"), 11: (b"a@x", bytes(2_049))}.items():
            with pytest.raises(Refused) as caught:
                write(*arguments)
            assert caught.value.number == number
    with pytest.raises(Refused) as caught:
        display(b"<a@x>")
    assert (caught.value.number, caught.value.slot) == (9, None)
    for number, arguments in {4: (b"no field", b"no field"), 5: (b"", b"no field"), 7: (from_a, b"no field")}.items():
        with pytest.raises(Refused) as caught:
            lint(*arguments)
        assert (caught.value.number, caught.value.slot) == (number, None)
