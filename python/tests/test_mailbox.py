"""Mailboxes: which octets of a file are a message's header block, and when it was received."""

import os

import pytest

from vienghulac._mailbox import NoMailbox, open_mailbox


@pytest.fixture
def mbox(tmp_path):
    path = tmp_path / "mbox"

    def make(octets):
        path.write_bytes(octets)
        os.utime(path, (777, 777))
        return [(message.block, message.receipt) for message in open_mailbox(str(path)).messages()]

    return make


OPENING = b"From a@x Tue Nov  7 13:53:50 2017\n"
TIME = 1_510_062_830


def test_blocks_end_with_the_first_empty_line(mbox):
    for ending in (b"\n", b"\r\n"):
        block = b"From: a@x" + ending + b"Subject: s" + ending + b" \tfolded" + ending + ending
        for body in (b"", b"text\n\n", b"text", b"text\nFrom here\n\n", b"text\n>From b\n\ntext\n\n\n"):
            assert mbox(OPENING + block + body) == [(block, TIME)]


def test_octets_are_handed_on_as_they_are(mbox):
    """Octets that Python's mail package would decode, fold anew or drop."""
    block = b"\xff\x00 no field\r\nSUBJECT:\t =?x?=\x80\r\r\nFrom:a@x\n \n" + b"long " * 500 + b"\n\n"
    assert mbox(OPENING + block + b"body\n") == [(block, TIME)]


def test_messages_follow_one_another(mbox):
    blocks = [b"From: %d@x\n\n" % number for number in range(5)]
    assert mbox(b"".join(OPENING + block + b"body\n\n" for block in blocks)) == [(block, TIME) for block in blocks]
    assert mbox(b"".join(OPENING + block for block in blocks)) == [(block, TIME) for block in blocks]


def test_a_line_opens_a_message_only_behind_an_empty_one(mbox):
    block = b"From: a@x\n\n"
    assert mbox(OPENING + block + b"text\n" + OPENING + b"text\n") == [(block, TIME)]
    assert mbox(OPENING + block + b"text\r\n\r\n" + OPENING + block) == [(block, TIME)] * 2


def test_the_last_message_may_end_anywhere(mbox):
    for block in (b"", b"From: a@x", b"From: a@x\n", b"\n", b"From: a@x\n\n"):
        assert mbox(OPENING + block) == [(block, TIME)]
    assert mbox(b"From ") == [(b"", 777)]
    assert mbox(b"") == []


def test_blocks_and_lines_without_end_are_cut_above_the_limit_B1(mbox):
    for block in (b"A: b\n" * 100_000, b"A:" + b"x" * 1_000_000):
        ((found, _), (after, _)) = mbox(OPENING + block + b"\n\n" + OPENING + b"From: a@x\n\n")
        assert 65_536 < len(found) < 3 * 65_536 and block.startswith(found) and after == b"From: a@x\n\n"
    exact = b"A:" + b"x" * 65_532 + b"\n\n"
    assert len(exact) == 65_536 and mbox(OPENING + exact + b"body") == [(exact, TIME)]
    # an empty line is one that begins behind a line's end, not the last piece of a long line
    ((found, _),) = mbox(OPENING + b"A:" + b"x" * 65_535 + b"\nFrom: a@x\n\nbody")
    assert len(found) > 65_536


@pytest.mark.parametrize(
    "line, receipt",
    [
        (b"From a@x Thu Jan  1 00:00:00 1970", 0),
        (b"From a@x Tue Nov  7 13:53:50 2017", TIME),
        (b"From MAILER-DAEMON Tue Nov 07 13:53:50 2017", TIME),
        (b"From 1583@xxx Tue Nov 07 13:53:50 +0000 2017", TIME),
        (b"From a@x Tue Nov  7 14:53:50 +0100 2017", TIME),
        (b"From a@x  Tue Nov  7 13:53:50 2017\r", TIME),
        (b"From a@x Thu Jan  1 00:00:00 1900", 0),
        (b"From a@x", 777),
        (b"From ", 777),
        (b"From a@x yesterday", 777),
        (b"From a@x Tue Nov 99 99:99:99 99999999999999999999", 777),
        (b"From \xff\xfe \x00\x00", 777),
    ],
)
def test_receipt_times(mbox, line, receipt):
    assert mbox(line + b"\nFrom: a@x\n\n") == [(b"From: a@x\n\n", receipt)]


def test_maildir(tmp_path):
    for name in ("cur", "new", "tmp"):
        (tmp_path / name).mkdir()
    for place, (name, time) in enumerate([("cur/b:2,S", 30), ("new/a", 10), ("cur/c:2,", 20), ("tmp/d", 5), ("cur/.e", 6)]):
        (tmp_path / name).write_bytes(b"From: %d@x\r\n\r\nbody" % place)
        os.utime(tmp_path / name, (time, time))
    (tmp_path / "cur" / "folder").mkdir()
    mailbox = open_mailbox(str(tmp_path))
    assert mailbox.size == 3
    found = [(message.block, message.receipt) for message in mailbox.messages()]
    assert found == [(b"From: 1@x\r\n\r\n", 10), (b"From: 2@x\r\n\r\n", 20), (b"From: 0@x\r\n\r\n", 30)]


def test_what_is_no_mailbox(tmp_path):
    (tmp_path / "file").write_bytes(b"From: a@x\n\n")
    for path in (tmp_path, tmp_path / "file"):
        with pytest.raises(NoMailbox):
            open_mailbox(str(path))
    with pytest.raises(FileNotFoundError):
        open_mailbox(str(tmp_path / "none"))
