"""Domains in any script: the canonical form of an address (L6 to L8, L22) and the address shown (W11, W12), through the
package and on the command line."""

import json
import os
import random
import re

import pytest
from cases import Cases
from commands import answer, failure
from letters import RECEIPT, gossip, letter, table_with
from scope import displaying
from scope.table import Entry, table_of

from vienghulac import (
    REFUSALS, Advice, Gossip, Refused, Table, autocrypt_field, autocrypt_header, check, convert, display, entries,
    gossip_field, gossip_header, process, recommend, target_key,
)  # fmt: skip

SEED = int(os.environ.get("VIENGHULAC_SEED", "1"))
ROOM = 1 << 16
UTF8 = {**os.environ, "PYTHONIOENCODING": "utf-8"}

LAST = "\U0010ffff"
LONGEST = "a@" + ".".join(LAST * many for many in (55, 55, 55, 52))

# L8, L22: addresses, what is stored of them, and what is shown of both (W12).
FORMS = [
    ("Bob.B@X.Example", "bob.b@x.example", "bob.b@x.example"),
    ("A@BÜCHER.Example", "a@xn--bcher-kva.example", "a@bücher.example"),
    ("A@XN--BCHER-KVA.example", "a@xn--bcher-kva.example", "a@bücher.example"),
    ("Ö@Ö", "ö@xn--nda", "ö@ö"),
    ("a@xn--é", "a@xn--xn---epa", "a@xn--é"),
    ("a@é-é", "a@xn----9fab", "a@é-é"),
    ("a@xn--a", "a@xn--a", "a@\x80"),
    ("a@\x80", "a@xn--a", "a@\x80"),
    ("a@xn--dca", "a@xn--dca", "a@xn--dca"),  # of `É`: typed as a label it is `é`
    ("a@xn----bga", "a@xn----bga", "a@xn----bga"),  # of `-é`, which is no label
    ("a@xn--zzzzzzzz", "a@xn--zzzzzzzz", "a@xn--zzzzzzzz"),
    ("a@他们为什么不说中文", "a@xn--ihqwcrb4cv8a8dqg056pqjye", "a@他们为什么不说中文"),  # RFC 3492, 7.1, B and E
    ("a@Pročprostěnemluvíčesky", "a@xn--proprostnemluvesky-uyb24dma41a", "a@pročprostěnemluvíčesky"),
    ("a@b.ÉÉ.c.xn--dca", "a@b.xn--9caa.c.xn--dca", "a@b.éé.c.xn--dca"),
    ("a@" + ".".join("é" * 31), "a@" + ".".join(["xn--9ca"] * 31), "a@" + ".".join("é" * 31)),
]

# R9: no plain addresses, by their domains and by what stands around them.
REFUSED = [
    *("a@-é".encode(), "a@é-".encode(), "a@é_".encode(), "a@é..b".encode(), b"a@\xc3", b"a@\xed\xa0\x80", b"a@xn--"),
    *("a@é.".encode(), "a@.é".encode(), "é".encode(), "é@".encode(), "@é".encode(), "a@é@é".encode(), b"a@b\xc3.\xa9"),
    *(b"", b" a@b", b"a@b ", b"<a@b>", b"A <a@b>", "<a@é>".encode(), "a@é ".encode(), b"a@b\r\n", b"a@b\0", b"a@\xff"),
]


def stored(address):
    """The form of an address that each of these agrees on: both fields, and the entry of a sender."""
    said = re.fullmatch(rb"Autocrypt: addr=(.*); keydata=\r\n Zm9v\r\n", autocrypt_field(address, b"foo"))[1]
    assert gossip_field(address, b"foo") == b"Autocrypt-Gossip: addr=" + said + b"; keydata=\r\n Zm9v\r\n"
    table = Table.new(1)
    process(table, RECEIPT, letter(address, b"foo"))
    (entry,) = entries(table)
    assert (entry.address, entry.direct_key) == (said, b"foo")
    return said


def refusal_of(call, *arguments):
    with pytest.raises(Refused) as caught:
        call(*arguments)
    return caught.value.number


def label(points):
    """The form of a label with other letters than ASCII, by the codec of Python's own."""
    return b"xn--" + points.encode("punycode")


# Forms, and what is shown of them.


@pytest.mark.parametrize("given, form, shown", FORMS)
def test_forms_and_what_is_shown_L8_L22_W12(given, form, shown):
    assert stored(given.encode()) == form.encode()
    for spelling in (given, form, shown):
        assert display(spelling.encode()) == shown.encode()


@pytest.mark.parametrize("given, form, shown", FORMS)
def test_what_is_shown_can_be_typed_back_C20(given, form, shown):
    assert stored(shown.encode()) == stored(form.encode()) == form.encode()


def test_octets_that_are_no_text_are_shown_as_they_are_L21():
    assert display(b"\xc3\x96.\xffA@XN--NDA") == b"\xc3\x96.\xffa@\xc3\xb6"


@pytest.mark.parametrize("address", REFUSED)
def test_what_is_no_plain_address_R9(address):
    assert refusal_of(display, address) == 9
    for write in (autocrypt_field, autocrypt_header, gossip_field, gossip_header):
        assert refusal_of(write, address, b"foo") == 9


def test_forms_by_another_coder_L23():
    chance = random.Random(SEED)
    for _ in range(1_000):
        middle = [chance.choice("ab-1é他ж\x80\u3002\ud7ff\ue000\U0001f600" + LAST) for _ in range(chance.randint(0, 12))]
        points = "".join([chance.choice("aé他"), *middle, chance.choice("0ж" + LAST), "é"])
        address = b"a@" + points.encode()
        assert stored(address) == b"a@" + label(points)
        assert display(b"a@" + label(points)) == address


def test_as_the_independent_program_W11():
    cases, seen = Cases(SEED), set()
    for _ in range(3_000):
        address, _ = cases.displaying()
        number, shown = displaying.display(address, ROOM)
        try:
            assert (0, display(address)) == (number, shown)
        except Refused as refused:
            assert refused.number == number == 9
        seen.add((number, shown != address and not shown.isascii()))
    assert seen == {(0, False), (0, True), (9, False)}


# Growth, to the limits and past them.


@pytest.mark.parametrize("letter_of, most", [("é", 57), ("他", 57), (LAST, 55)])
def test_a_label_grows_to_63_octets_L7(letter_of, most):
    form = label(letter_of * most)
    assert len(form) == 63
    assert stored(f"a@{letter_of * most}".encode()) == b"a@" + form
    assert display(b"a@" + form) == f"a@{letter_of * most}".encode()
    assert len(label(letter_of * (most + 1))) == 64
    assert refusal_of(display, f"a@{letter_of * (most + 1)}".encode()) == 9


def test_an_address_grows_to_254_octets_L6():
    assert len(stored(LONGEST.encode())) == 254 < len(LONGEST.encode()) == 873
    assert display(stored(LONGEST.encode())) == LONGEST.encode()
    assert refusal_of(display, ("a" + LONGEST).encode()) == 9
    many = ".".join("é" * 32).encode()  # of 95 octets, and of 255 in its form
    assert refusal_of(display, b"a@" + many) == 9
    local = b"a" * 64
    assert len(stored(local + b"@" + ".".join("é" * 23).encode() + b".abcde")) == 64 + 1 + 23 * 8 + 5 == 254
    assert refusal_of(display, local + b"@" + ".".join("é" * 23).encode() + b".abcdef") == 9


def test_a_label_without_an_end_R9():
    """A text of a million letters is refused like any other."""
    assert refusal_of(display, b"a@" + "é".encode() * 1_000_000) == 9
    assert refusal_of(display, b"a@" + b"xn--" * 1_000_000 + b"a") == 9


# One person in every spelling, in each field and argument.

SPELLINGS = ["bob@bücher.example", "Bob@BÜCHER.Example", "bob@xn--bcher-kva.example", "BOB@XN--BCHER-KVA.EXAMPLE"]


@pytest.mark.parametrize("spelling", SPELLINGS)
def test_one_person_in_each_spelling_L8(spelling):
    table, (key,) = table_with(SPELLINGS[2].encode())
    address = spelling.encode()
    assert recommend(table, b"Bob <" + address + b">") == Advice.AVAILABLE
    assert target_key(table, b"team: c@x, " + address + b";", place=1) == key
    block = b"From: " + address + b"\r\nAutocrypt: addr=%s; keydata=Zm9v\r\n\r\n"
    for other in SPELLINGS:  # F12: `addr` is the sender's, in whichever spelling
        process(table, RECEIPT, block % other.encode())
        assert [entry.address for entry in entries(table)] == [SPELLINGS[2].encode()]
        assert target_key(table, address) == b"foo"


@pytest.mark.parametrize("field", [b"To", b"Cc", b"Reply-To"])
@pytest.mark.parametrize("spelling", SPELLINGS)
def test_gossip_about_each_spelling_G4_G5(field, spelling):
    for other in SPELLINGS:
        table = Table.new(2)
        outer = letter(b"a@x", more=field + b": Bob <" + spelling.encode() + b">\r\n")
        process(table, RECEIPT, outer, gossip((other.encode(), b"key")), Gossip.TAKE)
        assert [entry.address for entry in entries(table)] == [b"a@x", SPELLINGS[2].encode()]
        assert target_key(table, spelling.encode()) == b"key"


def test_a_bad_domain_spoils_what_it_stands_in_L16_R5_R10():
    table, _ = table_with(b"a@x")
    before = bytes(table)
    for bad in ("b@é-", "b@" + "é" * 58, "b@é_"):
        assert refusal_of(process, table, RECEIPT, letter(bad.encode(), b"key")) == 5
        assert refusal_of(recommend, table, b"a@x, " + bad.encode()) == 10
        hidden = letter(b"a@x", more=b"To: c@x, " + bad.encode() + b"\r\n")
        process(table, RECEIPT, hidden, gossip((b"c@x", b"key")), Gossip.TAKE)
        process(table, RECEIPT, letter(b"a@x", more=b"Autocrypt: addr=" + bad.encode() + b"; keydata=Zm9v\r\n"))
        assert bytes(table) == before


# Tables: nothing to convert.


def test_a_table_of_version_0_4_stays_as_it_is_T16_T19():
    bob = Entry(b"bob@xn--bcher-kva.example", RECEIPT, RECEIPT, b"key")
    octets = table_of([None, bob, Entry(b"a@xn--dca", RECEIPT)])
    check(octets)
    assert bytes(convert(octets)) == octets
    table = Table(octets)
    process(table, RECEIPT, letter("bob@bücher.example".encode(), b"newer"))
    assert [entry.address for entry in entries(table)] == [b"bob@xn--bcher-kva.example", b"a@xn--dca"]
    assert target_key(table, "Bob@Bücher.example".encode()) == b"newer"


def test_a_domain_that_is_not_ascii_is_stored_nowhere_T8_T16():
    octets = table_of([None, Entry("bob@bücher.example".encode(), RECEIPT)])
    for call in (Table, check, convert):
        assert refusal_of(call, octets) == 2


# The command.


@pytest.fixture
def listed(table_file):
    """A table of four: decoded, kept, with a control character and one that turns the line, and no text."""
    turned = label("a\u202eb")
    table, _ = table_with("Bob@BÜCHER.example".encode(), b"a@xn--dca", b"a@xn--a." + turned, b"\xff@xn--nda")
    table.save(table_file)
    return table_file, turned.decode()


def test_display_shows_an_address():
    for given, form, shown in FORMS:
        if shown.isprintable():
            assert answer("display", given, env=UTF8).decode() == shown + "\n"
        assert json.loads(answer("display", "--json", form)) == {"display": shown}
    assert answer("display", "a@xn--bcher-kva", env={**UTF8, "PYTHONIOENCODING": "ascii"}) == b"a@b\\xfccher\n"


def test_display_steers_no_terminal():
    """A stranger chose the address: what is not printable is escaped, and so is what is no text."""
    assert answer("display", "a@xn--a", env=UTF8) == b"a@\\x80\n"
    assert answer("display", "a@\x9b31m\u202eé\u3000", env=UTF8).decode() == "a@\\x9b31m\\u202eé\\u3000\n"
    assert answer("display", b"\xff.A@\xc3\x96", env=UTF8).decode() == "\\xff.a@ö\n"
    assert json.loads(answer("display", "--json", b"\xff@x")) == {"display": "\udcff@x"}


@pytest.mark.parametrize("address", ["a@é-", "Alice <a@x>", "", b"a@\xfc.example"])
def test_display_refuses_R9(address):
    for more in ((), ("--json",)):
        assert failure(1, "display", address, *more) == f"vienghulac: refused 9: {REFUSALS[9]}\n"


@pytest.mark.parametrize("encoding", ["utf-8", "ascii"])
def test_list_shows_addresses_where_it_is_asked_to(listed, encoding):
    table_file, turned = listed
    env = {**os.environ, "PYTHONIOENCODING": encoding}
    plain = answer("list", "--table", table_file, env=env).decode(encoding).splitlines()
    shown = answer("list", "--display", "--table", table_file, env=env).decode(encoding).splitlines()
    assert [line.split()[0] for line in plain[1:]] == [
        "bob@xn--bcher-kva.example", "a@xn--dca", f"a@xn--a.{turned}", "\\xff@xn--nda",
    ]  # fmt: skip
    letters = ("ü", "ö") if encoding == "utf-8" else ("\\xfc", "\\xf6")
    assert [line.split()[0] for line in shown[1:]] == [
        f"bob@b{letters[0]}cher.example", "a@xn--dca", "a@\\x80.a\\u202eb", f"\\xff@{letters[1]}",
    ]  # fmt: skip
    assert [line.split()[1:] for line in shown[1:]] == [line.split()[1:] for line in plain[1:]]
    assert shown[0].split() == plain[0].split()


def test_list_in_json_has_both(listed):
    table_file, turned = listed
    found = json.loads(answer("list", "--json", "--table", table_file))
    assert [(entry["address"], entry["display"]) for entry in found] == [
        ("bob@xn--bcher-kva.example", "bob@bücher.example"), ("a@xn--dca", "a@xn--dca"),
        (f"a@xn--a.{turned}", "a@\x80.a\u202eb"), ("\udcff@xn--nda", "\udcff@ö"),
    ]  # fmt: skip
    assert json.loads(answer("list", "--json", "--display", "--table", table_file)) == found


def test_what_is_shown_can_be_given_to_the_other_commands(listed):
    table_file, _ = listed
    for entry in json.loads(answer("list", "--json", "--table", table_file)):
        key = bytes(target_key(Table.load(table_file), entry["address"].encode("utf-8", "surrogateescape")))
        assert answer("key", "--table", table_file, entry["display"]) == key
        assert answer("recommend", "--table", table_file, entry["display"]) == b"available\n"
        field = answer("field", entry["display"], "--key", "-", input=b"foo")
        assert b"addr=" + os.fsencode(entry["address"]) + b";" in field
