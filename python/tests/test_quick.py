"""The quick answer (A12 to A14): the advice of `recommend`, and how many recipients were looked up for it; through the
package and on the command line."""

import json
import os
import random

import pytest
from commands import answer, failure
from letters import RECEIPT, letter, table_with

from vienghulac import (
    REFUSALS, SLOT, Advice, QuickAdvice, Refused, Table, process, recommend, recommend_quick, target_key,
)  # fmt: skip

SEED = int(os.environ.get("VIENGHULAC_SEED", "1"))

# A13, where `k@x` has a key and `n@x` has none: a list, its advice and its count.
ANSWERS = [
    (b"k@x, n@x, k@x, n@x", Advice.DISABLE, 2),
    (b"k@x, k@x", Advice.AVAILABLE, 2),
    (b"n@x", Advice.DISABLE, 1),
    (b"e:;, g: k@x, n@x;, k@x", Advice.DISABLE, 2),
    (b"k@x", Advice.AVAILABLE, 1),
    (b"n@x, k@x", Advice.DISABLE, 1),
    (b"K <K@X>, (n@x) k@x, \"n@x\" <k@x>, N@X", Advice.DISABLE, 4),
    (b"k@x," * 99 + b"n@x", Advice.DISABLE, 100),
    (b"k@x," * 99 + b"k@x", Advice.AVAILABLE, 100),
    (b"n@x," * 99 + b"n@x", Advice.DISABLE, 1),
]

# A14: lists with a fault, most of them behind someone without a key.
REFUSED = [
    b"n@x,", b"n@x, k@x, (", b"n@x, k@", b"n@x, \x01", b"k@x, n@x,, k@x", b"", b"e:;", b"n@x," * 100 + b"n@x",
    b"n@x," + b"k@x," * 99 + b"k@x",
]  # fmt: skip


@pytest.fixture(scope="module")
def table():
    """Of `k@x`, who has a key, and of `n@x`, who was seen without one."""
    made, _ = table_with(b"k@x")
    process(made, RECEIPT, letter(b"n@x"))
    return made


def refusal_of(call, *arguments):
    with pytest.raises(Refused) as caught:
        call(*arguments)
    return caught.value.number, caught.value.slot


@pytest.mark.parametrize("recipients, advice, looked_up", ANSWERS)
def test_advice_and_count_A13(table, recipients, advice, looked_up):
    assert recommend_quick(table, recipients) == QuickAdvice(advice, looked_up)
    assert recommend(table, recipients) == advice
    unseen, _ = table_with(b"k@x")  # A2: without an entry as without a key
    assert recommend_quick(unseen, recipients) == (advice, looked_up)


def test_what_an_answer_is_A12(table):
    quick = recommend_quick(table, b"k@x, n@x")
    assert (type(quick), type(quick.advice), type(quick.looked_up)) == (QuickAdvice, Advice, int)
    assert QuickAdvice._fields == ("advice", "looked_up")
    advice, looked_up = quick
    assert (advice, looked_up) == (quick.advice, quick.looked_up) == (Advice.DISABLE, 2)


@pytest.mark.parametrize("recipients", REFUSED)
def test_the_list_is_read_to_its_end_A14_R10(table, recipients):
    before = bytes(table)
    for switches in ((), (True,), (False, True)):
        assert refusal_of(recommend_quick, table, recipients, *switches) == (10, None)
        assert refusal_of(recommend, table, recipients, *switches) == (10, None)
    assert bytes(table) == before


def test_what_is_no_table_any_more_R2_R31():
    """Someone wrote to memory that is not theirs. The table comes first, whatever the list is."""
    broken, _ = table_with(b"k@x", b"l@x")
    broken._memory[SLOT] = b"x"
    for recipients in (b"k@x", b"n@x", b"n@x,"):
        assert refusal_of(recommend_quick, broken, recipients) == (2, 1)


def test_preference_and_reply_are_those_of_recommend_A4():
    """Each of the advices, and a reply that does not lift disable."""
    table = Table.new(4)
    process(table, RECEIPT, letter(b"m@x", b"key", mutual=True))
    process(table, RECEIPT - 40 * 86_400, letter(b"s@x", b"key"))
    process(table, RECEIPT, letter(b"s@x"))  # stale now
    for recipients, switches, expected in (
        (b"m@x, m@x", (), (Advice.AVAILABLE, 2)),
        (b"m@x, m@x", (True,), (Advice.ENCRYPT, 2)),
        (b"m@x, s@x, m@x", (True,), (Advice.DISCOURAGE, 3)),
        (b"m@x, s@x, m@x", (False, True), (Advice.ENCRYPT, 3)),
        (b"s@x, n@x, m@x", (True, True), (Advice.DISABLE, 2)),
    ):
        assert recommend_quick(table, recipients, *switches) == expected
        assert recommend(table, recipients, *switches) == expected[0]
    assert recommend_quick(table, b"m@x, s@x", reply=True) == (Advice.ENCRYPT, 2)
    assert recommend_quick(table, b"m@x", mutual=True) == (Advice.ENCRYPT, 1)


def test_the_place_is_that_of_the_first_without_a_key_A6_A13(table):
    chance = random.Random(SEED)
    for _ in range(300):
        share = chance.random() ** 3
        people = [b"n@x" if chance.random() < share else b"k@x" for _ in range(chance.randint(1, 100))]
        recipients = b",".join(people)
        advice, looked_up = recommend_quick(table, recipients)
        keys = [target_key(table, recipients, place=place) for place in range(looked_up)]
        assert advice == recommend(table, recipients)
        if advice == Advice.DISABLE:
            assert keys.pop() is None and people[looked_up - 1] == b"n@x"
        else:
            assert looked_up == len(people)
        assert None not in keys


def test_who_stands_behind_the_first_disable_does_not_matter_C21():
    answers = set()
    for others in ([], [b"l@x"], [b"l@x", b"m@x"], [b"m@x"]):
        table, _ = table_with(b"k@x", *others)
        answers.add(recommend_quick(table, b"k@x, n@x, l@x, m@x"))
    assert answers == {(Advice.DISABLE, 2)}


# The command.

BOB, DAVE = "bob@autocrypt.example", "dave@mail.example"


def test_the_command_counts_where_it_is_asked_to_A12_A13(imported):
    asked = ("recommend", "--table", imported)
    for words, advice, number, looked_up in (
        ((f"{BOB}, Dave <{DAVE}>, {BOB}",), "disable", 1, 2),
        ((f"{DAVE}, {BOB}", "--reply"), "disable", 1, 1),
        (("carol@autocrypt.example",), "discourage", 2, 1),
        ((f"{BOB}, {BOB}, {BOB}",), "available", 3, 3),
        ((f"{BOB}, {BOB}", "--mutual"), "encrypt", 4, 2),
    ):
        assert answer(*asked, *words).decode() == f"{advice}\n"
        assert answer(*asked, "--quick", *words).decode() == f"{advice} {looked_up}\n"
        described = {"advice": advice, "advice_number": number}
        assert json.loads(answer(*asked, "--json", *words)) == described
        assert json.loads(answer(*asked, "--json", "--quick", *words)) == {**described, "looked_up": looked_up}


def test_the_place_leads_to_no_key_on_the_command_line_A6_A13(imported):
    """What `--quick` counts from 1, `--place` counts from 0."""
    recipients = f"{BOB}, {DAVE}, {BOB}"
    assert answer("recommend", "--quick", "--table", imported, recipients) == b"disable 2\n"
    assert "no key" in failure(1, "key", "--table", imported, recipients, "--place", "1")
    assert answer("key", "--table", imported, recipients, "--place", "0")


@pytest.mark.parametrize("recipients", ["", f"{DAVE},", ",".join([DAVE] * 101)])
def test_the_command_refuses_as_without_it_R10(imported, recipients):
    for more in ((), ("--json",), ("--quick",), ("--quick", "--json")):
        said = failure(1, "recommend", "--table", imported, recipients, *more)
        assert said == f"vienghulac: refused 10: {REFUSALS[10]}\n"
