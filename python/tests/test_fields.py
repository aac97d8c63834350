"""Fields to send: as octets against the independent program, and as what `EmailMessage` writes."""

import copy
import os
import pickle
from email import message_from_bytes, policy
from email.message import EmailMessage

import pytest
from cases import Cases
from letters import RECEIPT, letter
from scope import writing

from vienghulac import Refused, Table, autocrypt_field, autocrypt_header, gossip_field, gossip_header, process, target_key

SEED = int(os.environ.get("VIENGHULAC_SEED", "1"))
ROOM = 1 << 16

LONG_DOMAIN = b"@" + b".".join([b"d" * 63] * 2) + b"." + b"D" * 61
ADDRESSES = [b"a@b.example", b"A@B", b"l" * 64 + LONG_DOMAIN, "é@b.example".encode(), b"\xff\xfe@b.example"]
KEY_LENGTHS = [1, 2, 3, 56, 57, 58, 114, 1_758, 2_047, 2_048]


def answered(write, *arguments):
    try:
        return 0, write(*arguments)
    except Refused as refused:
        return refused.number, b""


def test_fields_as_the_independent_program():
    cases, seen = Cases(SEED), set()
    for _ in range(3_000):
        address, key, mutual, _ = cases.writing()
        expected = writing.write_autocrypt(address, key, mutual, ROOM)
        assert answered(autocrypt_field, address, key, mutual) == expected
        assert answered(gossip_field, address, key) == writing.write_gossip(address, key, ROOM)
        seen.add(expected[0])
    assert seen == {0, 9, 11}


def test_the_example_W2_W3():
    assert (
        autocrypt_field(b"Bob@b.example", b"foo", mutual=True)
        == b"Autocrypt: addr=bob@b.example; prefer-encrypt=mutual; keydata=\r\n Zm9v\r\n"
    )
    assert gossip_field(b"Bob@b.example", b"foo") == b"Autocrypt-Gossip: addr=bob@b.example; keydata=\r\n Zm9v\r\n"


def test_the_pair():
    name, value = autocrypt_header(b"a@b.example", b"f" * 58)
    assert (name, value.name) == ("Autocrypt", "Autocrypt")
    assert value == "addr=a@b.example; keydata= " + "ZmZm" * 19 + " Zg=="
    name, value = gossip_header(b"a@b.example", b"foo")
    assert (name, value) == ("Autocrypt-Gossip", "addr=a@b.example; keydata= Zm9v")


@pytest.mark.parametrize("style", [policy.default, policy.SMTP, policy.SMTPUTF8, policy.strict, policy.SMTP.clone(max_line_length=40)])
def test_a_message_writes_the_lines_of_the_field(style):
    for address in ADDRESSES:
        for length in KEY_LENGTHS:
            key = os.urandom(length)
            pairs = [(autocrypt_header(address, key, True), autocrypt_field(address, key, True)),
                     (autocrypt_header(address, key), autocrypt_field(address, key)),
                     (gossip_header(address, key), gossip_field(address, key))]  # fmt: skip
            for (name, value), field in pairs:
                message = EmailMessage(policy=style)
                message["From"] = "x@y.example"
                message[name] = value
                message["Subject"] = "s"
                lines = [b"From: x@y.example\r\n", field, b"Subject: s\r\n", b"\r\n"]
                assert message.as_bytes() == b"".join(lines).replace(b"\r\n", style.linesep.encode())
                assert message[name] == value


def test_the_value_without_its_type_folds_alike_for_an_ordinary_key():
    """A program that keeps only the text of the value sends the same lines, where address and key are ordinary."""
    for length in (57, 300, 1_758, 2_048):
        key = os.urandom(length)
        name, value = autocrypt_header(b"alice@autocrypt.example", key, True)
        message = EmailMessage(policy=policy.SMTP)
        message[name] = "".join(value)
        assert message.as_bytes() == autocrypt_field(b"alice@autocrypt.example", key, True) + b"\r\n"


def test_what_a_message_writes_is_read_back_C7_C9():
    key = os.urandom(1_758)
    message = EmailMessage(policy=policy.SMTP)
    message["From"] = "Alice <Alice@a.example>"
    name, value = autocrypt_header(b"Alice@a.example", key, True)
    message[name] = value
    message.set_content("Hello")
    block = message.as_bytes().partition(b"\r\n\r\n")[0]
    table = Table.new(1)
    process(table, RECEIPT, block)
    assert target_key(table, b"alice@a.example") == key


def test_messages_with_the_field_are_copied_and_pickled():
    message = EmailMessage(policy=policy.SMTP)
    name, value = autocrypt_header(b"a@b.example", b"foo", True)
    message[name] = value
    for other in (copy.deepcopy(message), pickle.loads(pickle.dumps(message)), message_from_bytes(bytes(message), policy=policy.SMTP)):
        assert other.as_bytes() == message.as_bytes()
    assert pickle.loads(pickle.dumps(value)).name == name


def test_the_key_of_the_table_can_be_sent_on():
    """A view of the table is octets like any other: gossip about a correspondent."""
    table = Table.new(1)
    process(table, RECEIPT, letter(b"b@x", b"key of b"))
    assert gossip_field(b"b@x", target_key(table, b"b@x")) == gossip_field(b"b@x", b"key of b")
