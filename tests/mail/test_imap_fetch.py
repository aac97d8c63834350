"""examples/imap_fetch.py against a real server: its tables are those of the independent program, whatever the order of
fetching; and where the server fails, it says so in one line and leaves the table file alone."""

from __future__ import annotations

import collections
import imaplib
import os
import random
import re
import subprocess
import sys
import tempfile
import threading
import unittest
from datetime import timezone
from pathlib import Path
from typing import Optional

ROOT = Path(__file__).resolve().parents[2]
sys.path[:0] = [str(ROOT / "tests" / "independent"), str(ROOT / "examples")]

import imap_fetch
import vienghulac
from dovecot import PASSWORD, USER, Dovecot
from letters import BEGIN, Letter, Letters, moment
from relay import Relay
from scope import calls
from scope.table import SLOT, Entry, entries, table_of

PROGRAM = Path(imap_fetch.__file__)
NAME = 'Söhne & "Co"\\'  # every letter that the name of a mailbox has to be spelled for
SEED = 2026

SENDERS = Letters(SEED, 30)
BOX = SENDERS.mailbox(400)

Asked = tuple[list[bytes], bool, bool]  # recipients, the user's own preference, and whether the mail is a reply
Said = tuple[int, tuple[int, int], list[bytes]]  # the advice, the quick advice with its count, and the target keys


def run(
    port: int, *words: object, host: str = "127.0.0.1", plain: bool = True, **more: str
) -> subprocess.CompletedProcess[str]:
    """The program, as a user would start it; `more` is for its environment."""
    command = [sys.executable, PROGRAM, host, "--port", port, "--user", USER, *["--plain"] * plain, *words]
    environment = {**os.environ, "IMAP_PASSWORD": PASSWORD, "PYTHONIOENCODING": "utf-8", **more}
    return subprocess.run([str(word) for word in command], capture_output=True, text=True, encoding="utf-8", env=environment)


def stored(folder: str | Path) -> dict[Path, bytes]:
    """The files of a folder, but for locks, which stay."""
    return {file: file.read_bytes() for file in Path(folder).iterdir() if not file.name.endswith(".lock")}


def spelled(mailbox: str) -> str:
    """A mailbox's name for imaplib; NAME by hand, as the server has to show it."""
    return '"S&APY-hne &- \\"Co\\"\\\\"' if mailbox == NAME else mailbox


def fill(server: Dovecot, mailbox: str, letters: list[Letter]) -> None:
    """Append the letters to a mailbox, with their receipt times."""
    with server.connection() as imap:
        if mailbox != "INBOX":
            imap.create(spelled(mailbox))
        for letter in letters:
            date = imaplib.Time2Internaldate(letter.internal_date())
            status, data = imap.append(spelled(mailbox), "", date, letter.block + letter.body)
            assert status == "OK", data


def by_address(table: bytes) -> dict[bytes, Entry]:
    """The entries, whichever slots they stand in, read by the independent program, which finds the table sound."""
    assert calls.check(table) == (0, 0)
    return {entry.address: entry for entry in entries(table) if entry is not None}


def counted(printed: str) -> collections.Counter[int]:
    """How many messages got each answer, as the program prints it."""
    lines = re.findall(r"^ +(\d+)  +(\d+)  \w", printed, re.MULTILINE)
    return collections.Counter({int(number): int(count) for count, number in lines})


def utc(seconds: Optional[int]) -> str:
    return "-" if seconds is None else moment(seconds, timezone.utc).strftime("%Y-%m-%d %H:%M:%S")


class Expected:
    """What the independent program makes of letters, taken in the order of the mailbox."""

    def __init__(self, table: bytes, letters: list[Letter]) -> None:
        self.numbers: collections.Counter[int] = collections.Counter()
        for letter in letters:
            number, _, table = calls.process(table, letter.receipt, letter.block, b"", 0)
            self.numbers[number] += 1
        self.table = table

    def says(self, asked: Asked) -> Said:
        call = self.table, b", ".join(asked[0]), *asked[1:]
        number, _, advice = calls.recommend(*call)
        assert number == 0
        parts = [calls.target_key(*call, place) for place in range(len(asked[0]) + 1)]
        return advice, calls.quick(*call)[2:], [self.table[start : start + length] for start, length in parts]


def library_says(table: vienghulac.Table, asked: Asked) -> Said:
    """What the library says, as `Expected.says` has it."""
    call = table, b", ".join(asked[0]), *asked[1:]
    keys = [vienghulac.target_key(*call, place) for place in range(len(asked[0]) + 1)]
    return vienghulac.recommend(*call), vienghulac.recommend_quick(*call), [bytes(key or b"") for key in keys]


def questions(addresses: list[bytes]) -> list[Asked]:
    """Single recipients, several, and several with a stranger among them; each with both switches on and off."""
    chosen = random.Random(SEED)
    lists = [[address] for address in chosen.sample(addresses, 24)]
    lists += [chosen.sample(addresses, 2 + place) for place in range(6)]
    lists += [[*chosen.sample(addresses, 2), b"stranger@x.example"]]
    return [(to, mutual, reply) for to in lists for mutual in (False, True) for reply in (False, True)]


def setUpModule():
    """One server for all but those that are killed; INBOX is for the tests that need just some mail."""
    global SERVER
    SERVER = unittest.enterModuleContext(Dovecot())
    fill(SERVER, "INBOX", BOX)
    fill(SERVER, "Empty", [])


class Order(unittest.TestCase):
    """C11: the order of fetching, and the number of connections, change nothing but slots."""

    def assert_same(self, mailbox: str, letters: Letters, table: bytes, count: int, runs: list[tuple]) -> None:
        box = letters.mailbox(count)
        expected = Expected(table, box)
        self.assertEqual(set(expected.numbers), {0, 4, 5, 6})
        held = by_address(expected.table)
        self.assertEqual(len(held), len(table) // SLOT)  # no slot is free, and there was no 8
        asked = questions(letters.addresses)
        answers = [expected.says(one) for one in asked]
        self.assertEqual({advice for advice, _, _ in answers}, {1, 2, 3, 4})
        fill(SERVER, mailbox, box)
        printed, tables = [], []
        with tempfile.TemporaryDirectory() as folder:
            for number, (zone, *words) in enumerate(runs):
                file = Path(folder) / str(number)
                if table.strip(b"\0"):
                    file.write_bytes(table)
                done = run(SERVER.port, "--mailbox", mailbox, "--table", file, *words, TZ=zone)
                self.assertEqual((done.returncode, done.stderr), (0, ""))
                printed.append(done.stdout)
                tables.append(file.read_bytes())
        with SERVER.connection() as imap:
            imap.select(spelled(mailbox), readonly=True)
            self.assertEqual(imap.uid("SEARCH", "SEEN"), ("OK", [b""]))  # none is marked as read
        self.assertEqual(len(set(tables)), len(runs))  # orders did differ, as slots tell
        for saved in tables:
            self.assertEqual(by_address(saved), held)
            known = vienghulac.Table(saved)
            self.assertEqual([library_says(known, one) for one in asked], answers)
        self.assert_printed(printed, count, expected, held)

    def assert_printed(self, printed: list[str], count: int, expected: Expected, held: dict[bytes, Entry]) -> None:
        """Counts by answer, and the table by address: the same in all runs."""
        self.assertEqual(len(set(printed)), 1)
        lines = printed[0].splitlines()
        self.assertEqual(lines[0], f"{count} of {count} messages")
        self.assertEqual(counted(printed[0]), expected.numbers)
        rows = [re.split(r"  +", line) for line in lines[len(expected.numbers) + 2 :]]
        self.assertEqual([row[0].encode() for row in rows], sorted(held))
        for row in rows:
            entry = held[row[0].encode()]
            self.assertEqual(row[1:3], [utc(entry.last_seen), utc(entry.autocrypt_timestamp)])
            self.assertEqual(row[3:5], [str(len(entry.direct_key or b"")), "mutual" if entry.mutual else "none"])
            self.assertEqual(row[5:], [utc(entry.gossip_timestamp), str(len(entry.gossip_key or b""))])

    def test_a_full_table(self):
        """Every one of 256 slots, begun with no file."""
        runs = [
            ("UTC0", "--connections", 1),
            ("EST5EDT", "--connections", 3, "--shuffle", 1),
            ("TST-13", "--connections", 8, "--shuffle", 2),
        ]
        self.assert_same("Full", Letters(SEED + 1, 256), bytes(256 * SLOT), 2_000, runs)

    def test_a_table_that_goes_on(self):
        """A table of 40 slots that holds someone already, of older, equal and newer dates than the messages."""
        letters = Letters(SEED + 2, 40)
        a, b, c, d = letters.addresses[:4]
        begun = [
            Entry(a, BEGIN, BEGIN, b"old key", True),
            None,
            Entry(b, BEGIN * 2, BEGIN * 2, b"new key"),
            Entry(c, gossip_timestamp=BEGIN * 2, gossip_key=b"heard"),
            Entry(d, 0),
        ]
        runs = [
            ("UTC0", "--connections", 2),
            ("EST5EDT", "--connections", 5, "--shuffle", -3),
            ("TST-13", "--connections", 1, "--shuffle", 4),
        ]
        self.assert_same(NAME, letters, table_of(begun + [None] * 35), 3_000, runs)


class Failing(unittest.TestCase):
    """One clear line, exit status 1, nothing printed, and the table file as it was."""

    def setUp(self):
        self.folder = Path(self.enterContext(tempfile.TemporaryDirectory()))
        self.file = self.folder / "table"
        table = vienghulac.Table.new(30)
        vienghulac.process(table, BEGIN, b"From: " + SENDERS.addresses[0] + b"\r\n\r\n")
        table.save(self.file)

    def assert_fails(self, port, *words, saying, **more):
        """With a table file, and with none, of which nothing comes."""
        before = stored(self.folder)
        for file in (self.file, self.folder / "new"):
            done = run(port, "--table", file, *words, **more)
            self.assertEqual((done.returncode, done.stdout), (1, ""))
            self.assertRegex(done.stderr, rf"\Aimap_fetch: [^\n]*{saying}[^\n]*\n\Z")
            self.assertEqual(stored(self.folder), before)

    def test_refused_login(self):
        self.assert_fails(SERVER.port, IMAP_PASSWORD="wrong", saying="logging in as reader: .*Authentication failed")
        self.assert_fails(SERVER.port, "--user", "some one", saying="logging in as some one: .*Authentication failed")

    def test_missing_mailbox(self):
        for name in ("Missing", "two\nlines", "a b"):
            saying = re.escape(f"opening the mailbox {name}: ".replace("\n", "\\n")) + ".*[Mm]ailbox doesn't exist"
            self.assert_fails(SERVER.port, "--mailbox", name, saying=saying)

    def test_nobody_listens(self):
        with Relay(SERVER.port, 0, lambda: None) as relay:
            port = relay.port
        self.assert_fails(port, saying=f"connecting to 127.0.0.1, port {port}: .*refused")

    def test_a_name_that_no_host_has(self):
        done = run(SERVER.port, "--table", self.file, host="x" * 64)
        self.assertEqual((done.returncode, done.stdout), (1, ""))
        self.assertRegex(done.stderr, r"\Aimap_fetch: connecting to x{64}, port [^\n]*\n\Z")

    def test_bad_usage(self):
        """Exit status 2, as everywhere."""
        for option, value in (("connections", 0), ("connections", "two"), ("port", 65_536), ("timeout", -1), ("shuffle", "")):
            done = run(SERVER.port, "--table", self.file, f"--{option}={value}")
            self.assertEqual((done.returncode, done.stdout), (2, ""))
            self.assertIn(f"error: argument --{option}", done.stderr)

    def test_a_certificate_that_nobody_knows(self):
        self.assert_fails(SERVER.tls_port, plain=False, saying="connecting to .*certificate")

    def test_no_table(self):
        self.file.write_bytes(b"Dear diary")
        before = self.file.read_bytes()
        done = run(SERVER.port, "--table", self.file)
        self.assertEqual((done.returncode, done.stdout), (1, ""))
        self.assertRegex(done.stderr, r"\Aimap_fetch: [^\n]*/table: refused 1: [^\n]*\n\Z")
        self.assertEqual(self.file.read_bytes(), before)

    def test_a_file_that_cannot_be_written(self):
        done = run(SERVER.port, "--mailbox", "Empty", "--table", self.folder / "none" / "table")
        self.assertEqual((done.returncode, done.stdout), (1, ""))
        self.assertRegex(done.stderr, r"\Aimap_fetch: [^\n]*No such file[^\n]*\n\Z")

    def test_no_password(self):
        environment = {name: value for name, value in os.environ.items() if name != "IMAP_PASSWORD"}
        command = [sys.executable, PROGRAM, "127.0.0.1", "--user", USER]
        done = subprocess.run(command, capture_output=True, text=True, env=environment, stdin=subprocess.DEVNULL)
        self.assertEqual((done.returncode, done.stdout), (1, ""))
        self.assertRegex(done.stderr, r"\Aimap_fetch: no password[^\n]*\n\Z")

    def test_a_server_that_falls_silent(self):
        end = threading.Event()
        with Relay(SERVER.port, 100_000, end.wait) as relay:
            try:
                done = run(relay.port, "--table", self.file, "--timeout", 1, "--connections", 1)
            finally:
                end.set()
        self.assertTrue(relay.happened)
        self.assertEqual((done.returncode, done.stdout), (1, ""))
        self.assertRegex(done.stderr, r"\Aimap_fetch: fetching: [^\n]*timed out[^\n]*\n\Z")


class Killed(unittest.TestCase):
    """The server is killed while messages are on their way."""

    def test_killed_in_the_middle(self):
        box = Letters(SEED + 3, 30).mailbox(1_500)
        octets = sum(len(letter.block) for letter in box)
        lost = r"the connection broke off [^\n]*\n\Z"
        # of several connections one may be at its beginning
        for connections, saying in ((1, rf"\Aimap_fetch: fetching: {lost}"), (4, rf"\Aimap_fetch: [^\n]+: {lost}")):
            with Dovecot() as server, tempfile.TemporaryDirectory() as folder:
                file = Path(folder) / "table"
                vienghulac.Table.new(30).save(file)
                before = file.read_bytes()
                fill(server, "INBOX", box)
                with Relay(server.port, octets // 3, server.kill) as relay:
                    done = run(relay.port, "--table", file, "--connections", connections)
                self.assertTrue(relay.happened and server.ended())
                self.assertTrue(octets // 3 <= relay.passed < octets, relay.passed)
                self.assertEqual((done.returncode, done.stdout), (1, ""))
                self.assertRegex(done.stderr, saying)
                self.assertEqual(file.read_bytes(), before)
                self.assertEqual([file.name for file in stored(folder)], ["table"])


class Answers(unittest.TestCase):
    """What imaplib makes of a server's answer, and how it is read."""

    class Imap:
        def __init__(self, *answer):
            self.answer = list(answer)

        def uid(self, *words):
            return "OK", self.answer

    def test_any_order_of_items(self):
        """A server may send the items in any order, and tell of flags in between."""
        imap = self.Imap(
            b"9 (FLAGS (\\Seen))",
            (b'1 (UID 7 INTERNALDATE " 1-Jan-1970 00:00:05 +0000" BODY[HEADER] {2}', b"\r\n"), b")",
            b"8 (FLAGS ())",
            (b"2 (UID 8 BODY[HEADER] {11}", b"From: a@b\r\n"), b' INTERNALDATE "17-Jul-1996 02:44:25 -0700")',
        )  # fmt: skip
        found = sorted(imap_fetch.messages(imap, ["7", "8"]))
        self.assertEqual(found, [(5, b"\r\n"), (837_596_665, b"From: a@b\r\n")])
        self.assertEqual(list(imap_fetch.messages(self.Imap(None), ["7"])), [])  # gone meanwhile

    def test_a_block_is_freed_behind_its_call(self):
        class Block(bytes):
            """Octets that tell when they are freed."""

            def __del__(self):
                freed.append(bytes(self))

        freed = []
        imap = self.Imap(*((b'INTERNALDATE "17-Jul-1996 02:44:25 -0700"', Block(b"%d" % number)) for number in range(5)))
        for number, (_, block) in enumerate(imap_fetch.messages(imap, [])):
            self.assertEqual(len(freed), number)
            self.assertEqual(len(imap.answer), 4 - number)
        del block
        self.assertEqual(freed, [b"4", b"3", b"2", b"1", b"0"])

    def test_receipt_times(self):
        """In any zone; before 1970 it is 0."""
        self.assertEqual(imap_fetch.receipt_time(b'INTERNALDATE "31-Dec-1969 23:59:59 +0000"'), 0)
        self.assertEqual(imap_fetch.receipt_time(b'INTERNALDATE "01-Jan-1970 05:30:01 +0530"'), 1)
        for words in (b"", b"INTERNALDATE NIL", b'INTERNALDATE "long ago"', b'INTERNALDATE "'):
            self.assertRaises(imap_fetch.Failure, imap_fetch.receipt_time, words)


class Serving(unittest.TestCase):
    """What else the program can do."""

    def test_tls(self):
        plain = run(SERVER.port)
        done = run(SERVER.tls_port, plain=False, SSL_CERT_FILE=str(SERVER.certificate))
        self.assertEqual((done.returncode, done.stderr, done.stdout), (0, "", plain.stdout))
        self.assertEqual(counted(done.stdout), Expected(bytes(30 * SLOT), BOX).numbers)

    def test_an_empty_mailbox(self):
        done = run(SERVER.port, "--mailbox", "Empty", "--connections", 3)
        self.assertEqual((done.returncode, done.stderr), (0, ""))
        self.assertEqual(done.stdout.splitlines()[0], "0 of 0 messages")
        self.assertEqual(len(done.stdout.splitlines()), 2)

    def test_a_table_that_is_too_small(self):
        """Who finds no slot gives 8, which is counted and no failure."""
        with tempfile.TemporaryDirectory() as folder:
            file = Path(folder) / "table"
            vienghulac.Table.new(10).save(file)
            done = run(SERVER.port, "--table", file)
            self.assertEqual((done.returncode, done.stderr), (0, ""))
            self.assertEqual(len(by_address(file.read_bytes())), 10)
        numbers = Expected(bytes(30 * SLOT), BOX).numbers
        found = counted(done.stdout)
        self.assertGreater(found[8], 20)
        self.assertEqual([found[0] + found[8], found[4], found[5], found[6]], [numbers[0], numbers[4], numbers[5], numbers[6]])


if __name__ == "__main__":
    unittest.main()
