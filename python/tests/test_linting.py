"""Outgoing mail looked over (page O), through the package and on the command line."""

import base64
import json
import os
import random
from email.message import EmailMessage
from email.policy import SMTP

import pytest
from cases import Cases
from commands import INBOX, failure, run
from letters import EXAMPLES, RECEIPT, ROOT
from scope import header, linting

from vienghulac import (
    REFUSALS, Block, Fault, FaultKind, Refused, Table, _command, _library, autocrypt_field, autocrypt_header, entries,
    gossip_field, gossip_header, lint, process,
)  # fmt: skip
from vienghulac._linting import field_names
from vienghulac._mailbox import open_mailbox

SEED = int(os.environ.get("VIENGHULAC_SEED", "1"))
LIMIT = 65_536
MESSAGES = ROOT / "tests" / "independent" / "tests" / "messages"

# O10: two fields in front of what is looked at, and one that is valid.
HEAD = b"From: a@b\r\nTo: c@d\r\n"
VALID = b"Autocrypt: addr=a@b; keydata=Zg==\r\n"
MAIL = HEAD + VALID

# O10: what stands behind the head, a payload, and the faults.
FAULTS = [
    (b"Autocrypt: x=1\r\n", b"", [(0, 0, 1), (0, 3, 3), (0, 3, 4), (0, 3, 5)]),
    (b"Autocrypt: x=1\r\n" + VALID, b"", [(0, 3, 3), (0, 3, 4), (0, 3, 5)]),
    (b"Autocrypt: addr=a@b; keydata=Zg==;\r\n", b"", [(0, 0, 1), (0, 3, 5)]),
    (VALID, b"", []),
    (b"Autocrypt-Gossip:\r\n", b"", [(0, 0, 1), (0, 3, 5), (0, 3, 6), (0, 3, 7)]),
    (b"", b"Autocrypt-Gossip:\r\n", [(0, 0, 1), (1, 1, 5), (1, 1, 7)]),
    (b"", b"Autocrypt-Gossip: addr=C@D; keydata=Zg==\r\n", [(0, 0, 1)]),
    (VALID + VALID + VALID, b"", [(0, 4, 2), (0, 5, 2)]),
    (VALID, b"X: y\r\nAutocrypt-Gossip: addr=c@d; prefer-encrypt=; keydata=Zg==\r\n", [(1, 2, 8)]),
]

# What each kind is called, in the order of their numbers.
KINDS = {
    "NO_VALID": "no valid Autocrypt field",
    "MORE_VALID": "another valid Autocrypt field stands before it",
    "WRONG_ADDRESS": "its address is not the sender's",
    "UNKNOWN_ATTRIBUTE": "an unknown critical attribute",
    "KEY_DATA": "key data not last or not Base64",
    "GOSSIP_OUTSIDE": "gossip outside the payload",
    "GOSSIP_UNLISTED": "gossip about somebody who is not a recipient",
    "GOSSIP_PREFERENCE": "gossip with a preference",
}


def refusal_of(*blocks):
    with pytest.raises(Refused) as caught:
        lint(*blocks)
    assert caught.value.slot is None
    return caught.value.number


# The call.


@pytest.mark.parametrize("more, payload, faults", FAULTS)
def test_faults_O10(more, payload, faults):
    assert lint(HEAD + more, payload) == faults
    lines = (HEAD + more + b"\r\nbehind the empty line: ").replace(b"\r\n", b"\n"), payload.replace(b"\r\n", b"\n")
    assert lint(*lines) == faults
    if not payload:
        assert lint(HEAD + more) == faults


def test_what_an_answer_is_O2():
    (first, second) = faults = lint(HEAD + VALID + VALID, b"Autocrypt-Gossip: addr=e@f; keydata=Zg==")
    assert (type(faults), type(first), type(first.place)) == (list, Fault, int)
    assert first == Fault(block=Block.OUTER, place=4, kind=FaultKind.MORE_VALID)
    assert second == Fault(Block.PAYLOAD, 1, FaultKind.GOSSIP_UNLISTED)
    block, place, kind = first
    assert (type(block), place, type(kind)) == (Block, 4, FaultKind)
    assert Fault._fields == ("block", "place", "kind")
    assert [first < second, sorted(faults)] == [True, faults]
    assert lint(MAIL) == []


def test_words_of_kinds_and_blocks_O3():
    assert {kind.name: kind.words for kind in FaultKind} == KINDS
    assert [kind.value for kind in FaultKind] == list(range(1, 9))
    assert {block.words: block for block in Block} == {"outer": Block.OUTER, "payload": Block.PAYLOAD}
    assert (Block.OUTER, Block.PAYLOAD) == (0, 1)


def test_as_the_independent_program_O1():
    """Each kind, each refusal and no faults are met. Here the list always has room."""
    cases, kinds, numbers = Cases(SEED), set(), set()
    for _ in range(3_000):
        outer, payload, _ = cases.linting()
        number, expected = linting.lint(outer, payload, 3 * _library.FAULTS)
        try:
            assert (0, lint(outer, payload)) == (number, expected)
        except Refused as refused:
            assert refused.number == number
        kinds |= {kind for _, _, kind in expected}
        numbers.add((number, bool(expected)))
    assert kinds == set(FaultKind)
    assert numbers == {(0, False), (0, True), (4, False), (5, False), (7, False)}


def test_places_count_all_fields_O2():
    """A field with its continuations is one, whatever its name is."""
    filler = b"X: 1\r\n 2\r\n\t3\r\n  \r\nY:\r\n"
    assert lint(filler + HEAD + filler + b"AUTOCRYPT: addr=e@f;\r\n keydata=Zg==\r\n" + VALID) == [(0, 7, 3)]
    assert lint(MAIL, filler * 100 + b"autocrypt-gossip: addr=e@f;\n keydata=Zg==") == [(1, 201, 7)]


def test_refusals_R4_R5_R7_R31():
    broken, nobody = b"no field\r\n", b"To: c@d\r\n"
    assert [refusal_of(broken), refusal_of(MAIL + broken, b"X:"), refusal_of(b"From x@y\n" + MAIL)] == [4, 4, 4]
    assert [refusal_of(b""), refusal_of(nobody), refusal_of(MAIL + MAIL), refusal_of(nobody, broken)] == [5, 5, 5, 5]
    assert refusal_of(b"From: a@b, c@d\r\n") == 5
    assert [refusal_of(MAIL, broken), refusal_of(HEAD, b" continued")] == [7, 7]
    assert refusal_of(broken, broken) == 4


def test_blocks_at_the_limit_B1():
    for fill in (b"X:" + b"x" * LIMIT, b"\r\n" + b"x" * LIMIT):
        assert lint((MAIL + fill)[:LIMIT], fill[:LIMIT]) == []
        assert refusal_of((MAIL + fill)[: LIMIT + 1]) == 4
        assert refusal_of(MAIL, fill[: LIMIT + 1]) == 7


def test_a_report_is_not_refused_O1():
    report = b"Content-Type: multipart/report\r\n"
    assert lint(report + MAIL, report) == []
    with pytest.raises(Refused) as caught:
        process(Table.new(1), RECEIPT, report + MAIL)
    assert caught.value.number == 6


def test_there_is_room_for_the_worst_blocks_O11():
    outer = b"From:a@b\n" + b"Autocrypt:x=\n" * ((LIMIT - 9) // 13)
    payload = b"Autocrypt-Gossip:x=\n" * (LIMIT // 20)
    faults = lint(outer, payload)
    assert len(faults) == 24_949 == len(set(faults)) <= _library.FAULTS
    assert faults == sorted(faults)  # O4
    assert faults[:4] == [(0, 0, 1), (0, 2, 3), (0, 2, 4), (0, 2, 5)]
    assert faults[-3:] == [(1, 3_276, 4), (1, 3_276, 5), (1, 3_276, 7)]


# What we write ourselves.


def people(chance, many):
    """Addresses in many spellings, all different."""
    domains = ["X.example", "bücher.example", "xn--bcher-kva.example", "Ж"]
    return [f"p{number}{chance.choice('abXYéÉжЖ')}@{chance.choice(domains)}" for number in range(many)]


def test_what_the_calls_here_wrote_has_no_fault_C23():
    chance = random.Random(SEED)
    for _ in range(200):
        sender, *others = people(chance, chance.randint(1, 6))
        own = autocrypt_field(sender.encode(), chance.randbytes(chance.randint(1, 2_048)), chance.random() < 0.5)
        fields = [b"From: A <" + sender.encode() + b">\r\n", own, b"Subject: s\r\n folded\r\n"]
        fields += [chance.choice([b"To: ", b"Cc: ", b"Reply-To: "]) + other.encode() + b"\r\n" for other in others]
        told = [gossip_field(other.encode(), chance.randbytes(chance.randint(1, 2_048))) for other in others]
        chance.shuffle(fields)
        outer, payload = b"".join(fields), b"Content-Type: text/plain\r\n" + b"".join(told)
        assert lint(outer, payload) == lint(outer) == []
        for place, field in enumerate(told, len(fields) + 1):  # and it has, where it should not stand
            assert (0, place, FaultKind.GOSSIP_OUTSIDE) in lint(outer + b"".join(told))
            assert lint(b"From: " + sender.encode() + b"\r\n" + own, field) == [(1, 1, FaultKind.GOSSIP_UNLISTED)]


@pytest.mark.parametrize("policy", [None, SMTP])
def test_what_an_email_message_writes_has_no_fault_C23(policy):
    """By Python's mail package, with the line endings of its policies."""
    message, part = (EmailMessage(policy=policy) if policy else EmailMessage() for _ in range(2))
    message["From"], message["To"] = "Alice <alice@a.example>", "bob@b.example, Carol <carol@c.example>"
    name, value = autocrypt_header(b"alice@a.example", os.urandom(2_048), mutual=True)
    message[name] = value
    for address in (b"bob@b.example", b"Carol@C.example"):
        name, value = gossip_header(address, os.urandom(1_700))
        part[name] = value
    part.set_content("Hello")
    outer, payload = (bytes(one).replace(b"\r\n", b"\n").partition(b"\n\n")[0] for one in (message, part))
    assert lint(outer, payload) == []
    assert lint(bytes(message), bytes(part)) == []  # the bodies are short


def test_where_no_fault_of_kinds_1_and_2_is_a_field_counts_C24():
    """A mail with one valid field brings its key, whatever else is wrong with it."""
    cases, seen = Cases(SEED), set()
    for _ in range(1_500):
        outer, _, _ = cases.linting()
        table = Table.new(1)
        try:
            kinds = {kind for _, _, kind in lint(outer)}
            process(table, RECEIPT, outer)
        except Refused:
            continue
        counts = entries(table)[0].direct_key is not None
        assert counts == kinds.isdisjoint({FaultKind.NO_VALID, FaultKind.MORE_VALID})
        seen.add((counts, bool(kinds)))
    assert seen == {(False, True), (True, False), (True, True)}


# Names of fields, by which the command tells where a fault is.


def names_by_scope(block):
    found = header.fields(block)
    return None if found is None else [name.decode() for name, _ in found]


@pytest.mark.parametrize(
    "block",
    [
        b"", b"\n", b"\r\n", b"A:", b"A:b\n", b"A:b\r\n\r\nB:c", b"A:b\n\nB:c", b"A:b\n \nB:c", b"A:b\n\t\r\nB:c",
        b"A:b\r\r\nB:c", b"A:b\n \r\r\nB:c", b"A:b\n\n\r\n", b"A:b\n\r\n\n", b"A::b\nB:c:d\n e:f\n",
        b"!~:\x00\xff\nB:\r", b"A:b\rC:d\nB:", b"A:b\x0bC:d\nB:\x0c", b"A:b\x85C:d\nB:", b"\nA:b",
        b"A:\n :\n\t:\nB:", b"A:b\n ", b"A:b\n\t", b"A:b\n\nno field", b"A:b\r\n\r\n A:b",
    ],
)  # fmt: skip
def test_names_of_fields_B2_B5_B6_B7(block):
    assert field_names(block) == names_by_scope(block)


def test_names_of_fields_as_the_independent_program_has_them_B7():
    cases, many, chance = Cases(SEED), 0, random.Random(SEED)
    blocks = [part for _ in range(1_500) for part in cases.linting()[:2]]
    pieces = [b"A:", b"a-b:x", b"\r", b"\n", b"\r\n", b" ", b"\t", b":", b"Autocrypt:x=1", b"\n\n", b"\xff", b"\x0b"]
    blocks += [b"A:" + b"".join(chance.choices(pieces, k=chance.randint(0, 12))) for _ in range(20_000)]
    for block in blocks:
        expected = names_by_scope(block)
        if expected is not None:
            many += 1
            assert field_names(block) == expected, block
    assert many > 5_000


# The command.


def linted(*words, status=0, **more):
    """The lines of the command, and those that its JSON leads to; it has nothing to complain about."""
    done, described = run("lint", *words, **more), run("lint", "--json", *words, **more)
    assert (done.returncode, done.stderr) == (described.returncode, described.stderr) == (status, b"")
    lines = done.stdout.decode().splitlines()
    assert lines == ([line_of(**one) for one in json.loads(described.stdout)] or ["no faults"])
    assert done.stdout.endswith(b"\n") and described.stdout.count(b"\n") == 1
    return lines


def line_of(block, place, field, kind, kind_number, words):
    assert KINDS[kind.upper()] == words == FaultKind(kind_number).words and kind.upper() == FaultKind(kind_number).name
    assert (place == 0) == (field is None) == (kind == "no_valid")
    return f"{block}, field {place} ({field}): {words}" if place else f"{block}: {words}"


@pytest.fixture
def mails(tmp_path):
    """Writes an outer block and a payload into files."""

    def write(outer, payload=b""):
        (tmp_path / "mail").write_bytes(outer)
        (tmp_path / "payload").write_bytes(payload)
        return tmp_path / "mail", tmp_path / "payload"

    return write


def test_lines_and_json_O10(mails):
    mail, payload = mails(HEAD + b"Autocrypt: x=1\r\n", b"Autocrypt-Gossip:\r\n")
    assert linted(mail, status=1) == [
        "outer: no valid Autocrypt field",
        "outer, field 3 (Autocrypt): its address is not the sender's",
        "outer, field 3 (Autocrypt): an unknown critical attribute",
        "outer, field 3 (Autocrypt): key data not last or not Base64",
    ]
    assert linted(mail, "--payload", payload, status=1)[4:] == [
        "payload, field 1 (Autocrypt-Gossip): key data not last or not Base64",
        "payload, field 1 (Autocrypt-Gossip): gossip about somebody who is not a recipient",
    ]
    first, *_, last = json.loads(run("lint", "--json", mail).stdout)
    assert first == {
        "block": "outer", "place": 0, "field": None, "kind": "no_valid", "kind_number": 1,
        "words": "no valid Autocrypt field",
    }  # fmt: skip
    assert last == {
        "block": "outer", "place": 3, "field": "Autocrypt", "kind": "key_data", "kind_number": 5,
        "words": "key data not last or not Base64",
    }  # fmt: skip


def test_no_faults(mails):
    mail, payload = mails(MAIL, b"Autocrypt-Gossip: addr=c@d; keydata=Zg==\n\n" + b"Autocrypt-Gossip: x\n")
    assert linted(mail) == linted(mail, "--payload", payload) == ["no faults"]
    assert run("lint", "--json", mail).stdout == b"[]\n"


def test_a_name_stands_as_in_the_block_B11(mails):
    outer = b"FROM: a@b\nX: 1\n 2\naUTOCRYPT: x=1\n" + VALID
    mail, payload = mails(outer, b"X:\nAutoCrypt-GOSSIP: addr=e@f; keydata=Zg==")
    assert linted(mail, "--payload", payload, status=1) == [
        "outer, field 3 (aUTOCRYPT): its address is not the sender's",
        "outer, field 3 (aUTOCRYPT): an unknown critical attribute",
        "outer, field 3 (aUTOCRYPT): key data not last or not Base64",
        "payload, field 2 (AutoCrypt-GOSSIP): gossip about somebody who is not a recipient",
    ]


@pytest.mark.parametrize("ending", [b"\n", b"\r\n"])
def test_the_blocks_are_cut_at_their_empty_lines_B1_B5(mails, ending):
    """Mail with a body of any length is taken; a header block, its empty line counted, is refused above the limit."""
    head = (MAIL + b"\r\n").replace(b"\r\n", ending)
    body = b"Autocrypt: x=1\n" * 50_000 + b"\xff no field\n"
    mail, payload = mails(head + body, ending + body)
    assert linted(mail, "--payload", payload) == ["no faults"]
    filler = b"X:" + b"x" * (LIMIT - len(head) - len(b"X:" + ending)) + ending
    mail, payload = mails(filler + head + body, b"X:" + b"x" * (LIMIT - len(b"X:" + ending * 2)) + ending * 2 + body)
    assert linted(mail, "--payload", payload) == ["no faults"]
    mail, longer = mails(b"x" + filler + head + body, b"x" + payload.read_bytes())
    assert failure(1, "lint", mail) == f"vienghulac: {mail}: refused 4: {REFUSALS[4]}\n"
    mail.write_bytes(head)
    assert failure(1, "lint", mail, "--payload", longer) == f"vienghulac: {longer}: refused 7: {REFUSALS[7]}\n"


def test_a_block_is_cut_as_import_cuts_it_B5(tmp_path, mails):
    """Both take the very same octets out of a mail. Of a longer block than may be enough is left to refuse it."""
    chance = random.Random(SEED)
    pieces = [b"A: b", b"\r", b"\n", b"\r\n", b" ", b"From: a@b\n", b"\n\n", b"\r\n\r\n", b"x" * 40_000]
    for _ in range(300):
        octets = b"".join(chance.choices(pieces, k=chance.randint(0, 9)))
        (tmp_path / "mbox").write_bytes(b"From x@y\n" + octets)
        (message,) = [*open_mailbox(str(tmp_path / "mbox")).messages()][:1]
        block = _command._read_block(str(mails(octets)[0]))
        assert block == message.block[: LIMIT + 1]
        assert block == message.block or len(block) > LIMIT


def test_refusals_are_one_line(mails):
    """It names the file that is at fault, in JSON too."""
    for outer, number in ((b"no field\n", 4), (b"", 5), (HEAD, 7)):
        mail, payload = mails(outer, b"no field\n")
        said = f"vienghulac: {payload if number == 7 else mail}: refused {number}: {REFUSALS[number]}\n"
        for more in ((), ("--json",)):
            assert failure(1, "lint", mail, "--payload", payload, *more) == said
            if number != 7:
                assert failure(1, "lint", mail, *more) == said
    assert "refused 4" in failure(1, "lint", INBOX)  # B8: the first line of an mbox file is no field


def test_files_that_cannot_be_read(mails, tmp_path):
    mail, _ = mails(MAIL)
    for bad in (tmp_path / "none", tmp_path):
        assert str(bad) in failure(1, "lint", bad)
        assert str(bad) in failure(1, "lint", mail, "--payload", bad)


def test_standard_input(mails):
    told = b"Autocrypt-Gossip: addr=c@d; keydata=Zg==\n\nbody"
    mail, payload = mails(HEAD + told, told)
    outer = ["outer: no valid Autocrypt field", "outer, field 3 (Autocrypt-Gossip): gossip outside the payload"]
    assert linted("-", status=1, input=mail.read_bytes()) == outer
    assert linted("-", "--payload", payload, status=1, input=mail.read_bytes()) == outer
    assert linted(mail, "--payload", "-", status=1, input=b"Autocrypt-Gossip: addr=c@d; keydata=Zg") == [
        *outer, "payload, field 1 (Autocrypt-Gossip): key data not last or not Base64",
    ]  # fmt: skip
    assert failure(1, "lint", "-", input=b"").startswith("vienghulac: -: refused 5")
    assert failure(1, "lint", mail, "--payload", "-", input=b"x").startswith("vienghulac: -: refused 7")
    for words in (("-", "--payload", "-"), ("--payload=-", "--json", "-")):
        assert "cannot both be standard input" in failure(2, "lint", *words, input=MAIL)


def test_a_line_for_each_of_the_most_faults(mails):
    mail, payload = mails(b"From:a@b\n" + b"Autocrypt:x=\n" * 5_040, b"Autocrypt-Gossip:x=\n" * 3_276)
    lines = linted(mail, "--payload", payload, status=1)
    assert len(lines) == 24_949
    assert lines[-1] == "payload, field 3276 (Autocrypt-Gossip): gossip about somebody who is not a recipient"


# Examples.


def test_the_example_messages_of_autocrypt_C15():
    assert linted(MESSAGES / "alice-to-bob.txt") == ["no faults"]
    both = MESSAGES / "alice-to-both.txt", "--payload", MESSAGES / "alice-to-both-payload.txt"
    assert linted(*both) == linted(both[0]) == ["no faults"]
    # The mail to herself that carries the user's own secret key has no such field.
    assert linted(MESSAGES / "setup.txt", status=1) == ["outer: no valid Autocrypt field"]
    # Gossip about Carol in a mail to Bob alone; there Bob's stands first.
    assert linted(MESSAGES / "alice-to-bob.txt", *both[1:], status=1) == [
        "payload, field 2 (Autocrypt-Gossip): gossip about somebody who is not a recipient"
    ]


def test_the_mails_of_the_example_mailbox():
    """Those of people with a key are as they should be, the others have none; reports are looked over, too."""
    expected = [[(0, 0, 1)], [], [], [], [], [(0, 0, 1)], [(0, 0, 1)], 5, [(0, 0, 1)]]
    for message, faults in zip(open_mailbox(str(INBOX)).messages(), expected, strict=True):
        if faults == 5:
            assert refusal_of(message.block) == 5
        else:
            assert lint(message.block) == faults


def test_the_example_of_a_mail_with_faults(tmp_path):
    mail, payload = EXAMPLES / "outgoing.eml", EXAMPLES / "outgoing-payload.eml"
    assert linted(mail, "--payload", payload, status=1) == [
        "outer: no valid Autocrypt field",
        "outer, field 5 (Autocrypt): an unknown critical attribute",
        "payload, field 2 (Autocrypt-Gossip): gossip with a preference",
        "payload, field 3 (Autocrypt-Gossip): key data not last or not Base64",
        "payload, field 4 (Autocrypt-Gossip): gossip about somebody who is not a recipient",
    ]
    repaired = mail.read_bytes().replace(b" type=1;", b"").replace(b"\n Carol", b"\n dave@mail.example, Carol")
    (tmp_path / "mail").write_bytes(repaired)
    told = payload.read_bytes().replace(b" prefer-encrypt=mutual;", b"").replace(b";\nAutocrypt", b"\nAutocrypt")
    (tmp_path / "payload").write_bytes(told)
    assert linted(tmp_path / "mail", "--payload", tmp_path / "payload") == ["no faults"]


def test_what_the_command_field_writes_has_no_fault_C23(mails):
    key = EXAMPLES / "alice.key"
    own = run("field", "alice@a.example", "--key", key, "--mutual").stdout
    told = run("field", "bob@b.example", "--key", key, "--gossip").stdout
    mail, payload = mails(b"From: alice@a.example\nCc: bob@b.example\n" + own, told)
    assert base64.b64encode(key.read_bytes())[:60] in own and b"Gossip" in told
    assert linted(mail, "--payload", payload) == ["no faults"]
