"""Keys made by GnuPG, through the library and back: what is encrypted to a target key, its owner opens."""

from __future__ import annotations

import base64
import os
import re
import subprocess
import sys
import tempfile
import unittest
from concurrent.futures import ThreadPoolExecutor
from contextlib import ExitStack
from pathlib import Path

from people import ED25519, RSA_3072, RSA_4096, NotOpened, Person
from vienghulac import (
    REFUSALS, Advice, Gossip, Refused, Table, autocrypt_field, entries, gossip_field, process, recommend, target_key,
)  # fmt: skip

ROOT = Path(__file__).resolve().parents[2]
EXAMPLE = ROOT / "examples" / "openpgp.py"
KEY_LIMIT = 2_048
RECEIPT = 1_700_000_000

KINDS = {b"Alice@a.example": ED25519, b"bob@b.example": RSA_3072, b"carol@c.example": ED25519, b"dora@d.example": RSA_4096}


def setUpModule():
    """The keys, made at the same time: those of RSA take a while."""
    global ALICE, BOB, CAROL, DORA
    people = ExitStack()
    unittest.addModuleCleanup(people.close)
    with ThreadPoolExecutor() as threads:
        made = [threads.submit(Person(address, kind).__enter__) for address, kind in KINDS.items()]
    for one in made:
        if one.exception() is None:
            people.push(one.result().__exit__)
    ALICE, BOB, CAROL, DORA = (one.result() for one in made)


def head(sender: Person, *recipients: Person, more: bytes = b"") -> bytes:
    """The header block of a mail with the sender's key."""
    to = b", ".join(person.address for person in recipients)
    field = autocrypt_field(sender.address, sender.key, mutual=True)
    return b"From: <%s>\r\nTo: %s\r\nSubject: ...\r\n" % (sender.address, to) + field + more + b"\r\n"


def fingerprints(sender: Person, table: Table, recipients: bytes, count: int) -> list[str]:
    """The target keys of a list, taken into the sender's keyring."""
    found = []
    for place in range(count):
        key = target_key(table, recipients, place=place)
        assert key is not None
        found.append(sender.take(key))
    return found


class Keys(unittest.TestCase):
    def test_what_is_sent_fits(self):
        """A key as Autocrypt sends it: primary key, user id, subkey, and a signature behind each of the last two."""
        for person in (ALICE, BOB, CAROL):
            self.assertEqual(person.packets(), ["public key", "user ID", "signature", "public sub key", "signature"])
            self.assertLessEqual(len(person.key), KEY_LIMIT)
        self.assertEqual(DORA.packets(), BOB.packets())
        self.assertGreater(len(DORA.key), KEY_LIMIT)

    def test_mail_between_two(self):
        """Either kind of key: it comes by mail, is handed back as it was, and what is encrypted to it is opened."""
        for reader, writer in ((ALICE, BOB), (BOB, ALICE)):
            table = Table.new(4)
            process(table, RECEIPT, head(writer, reader))
            self.assertEqual(recommend(table, writer.address, mutual=True), Advice.ENCRYPT)
            key = target_key(table, writer.address)
            self.assertEqual(bytes(key), writer.key)
            found = fingerprints(reader, table, b"Name <%s>" % writer.address, 1)
            self.assertEqual(found, [writer.fingerprint])
            text = "Plain text, ä\r\n".encode() + os.urandom(3_000)
            sent = reader.encrypt(text, found)
            self.assertNotIn(text[:16], sent)
            self.assertEqual(writer.open(sent), text)
            for other in (CAROL, reader):
                self.assertRaises(NotOpened, other.open, sent)

    def test_gossip_and_a_reply_to_all(self):
        """Bob learns Carol's key inside a mail of Alice's, and answers both; Carol opens it, though she never wrote to him."""
        payload = b"Content-Type: text/plain\r\n" + gossip_field(BOB.address, BOB.key) + gossip_field(CAROL.address, CAROL.key)
        sent = ALICE.encrypt(payload + b"\r\nTo both of you.", [ALICE.take(BOB.key), ALICE.take(CAROL.key)])
        inner, _, text = BOB.open(sent).partition(b"\r\n\r\n")
        self.assertEqual(text, b"To both of you.")
        table = Table.new(4)
        process(table, RECEIPT, head(ALICE, BOB, CAROL), inner, Gossip.TAKE)
        keys = {entry.address: [bytes(key or b"") for key in (entry.direct_key, entry.gossip_key)] for entry in entries(table)}
        told = {BOB.address: [b"", BOB.key], CAROL.address: [b"", CAROL.key]}
        self.assertEqual(keys, {b"alice@a.example": [ALICE.key, b""], **told})
        everyone = ALICE.address + b", " + CAROL.address
        self.assertEqual(recommend(table, everyone, mutual=True), Advice.DISCOURAGE)
        self.assertEqual(recommend(table, everyone, mutual=True, reply=True), Advice.ENCRYPT)
        found = fingerprints(BOB, table, everyone, 2)
        self.assertEqual(found, [ALICE.fingerprint, CAROL.fingerprint])
        reply = BOB.encrypt(b"To all.", found)
        for person in (ALICE, CAROL):
            self.assertEqual(person.open(reply), b"To all.")
        self.assertRaises(NotOpened, DORA.open, reply)

    def test_gossip_is_not_taken_unless_wanted(self):
        for unwanted in ((), (Gossip.SKIP,)):
            table = Table.new(4)
            process(table, RECEIPT, head(ALICE, BOB, CAROL), gossip_field(CAROL.address, CAROL.key), *unwanted)
            self.assertIsNone(target_key(table, CAROL.address))


class TooLong(unittest.TestCase):
    """A key of RSA with 4,096 bits does not fit."""

    def assert_says_eleven(self, said: str) -> None:
        self.assertIn("refused 11", said)
        self.assertIn(REFUSALS[11], said)

    def test_it_is_not_written(self):
        for write in (autocrypt_field, gossip_field):
            with self.assertRaises(Refused) as raised:
                write(DORA.address, DORA.key)
            self.assertEqual(raised.exception.number, 11)
            self.assert_says_eleven(str(raised.exception))
            self.assertIn("RSA-4096 keys do not", raised.exception.hint)

    def test_the_command_does_not_write_it(self):
        for more in ([], ["--gossip"]):
            command = [sys.executable, "-m", "vienghulac", "field", DORA.address, "--key", "-", *more]
            done = subprocess.run(command, input=DORA.key, capture_output=True)
            self.assertEqual((done.returncode, done.stdout), (1, b""))
            self.assertEqual(done.stderr.count(b"\n"), 1)
            self.assert_says_eleven(done.stderr.decode())
            self.assertIn("RSA-4096 keys do not", done.stderr.decode())

    def test_it_is_not_read(self):
        """Mail with such a key is mail without one: its sender is seen, and cannot be encrypted to (F10)."""
        field = b"Autocrypt: addr=" + DORA.address + b"; keydata=" + base64.b64encode(DORA.key) + b"\r\n"
        table = Table.new(4)
        process(table, RECEIPT, b"From: " + DORA.address + b"\r\n" + field)
        self.assertEqual([(entry.address, entry.last_seen) for entry in entries(table)], [(DORA.address, RECEIPT)])
        self.assertEqual(recommend(table, DORA.address, mutual=True), Advice.DISABLE)
        self.assertIsNone(target_key(table, DORA.address))


class Example(unittest.TestCase):
    """examples/openpgp.py, as a reader runs it."""

    def test_its_story(self):
        with tempfile.TemporaryDirectory(prefix="t-", dir="/tmp") as folder:  # a short path, for the agents' sockets
            environment = {**os.environ, "TMPDIR": folder}
            done = subprocess.run([sys.executable, EXAMPLE], capture_output=True, text=True, env=environment)
            self.assertEqual(os.listdir(folder), [])
        self.assertEqual((done.returncode, done.stderr), (0, ""))
        read = [line for line in done.stdout.splitlines() if " reads: " in line]
        self.assertEqual(
            read,
            [
                "Alice reads: Hello Alice, this is Bob.",
                "Alice reads: Hello Alice, this is Carol.",
                "Bob reads: Bob, Carol: you should know each other.",
                "Carol reads: Bob, Carol: you should know each other.",
                "Alice reads: Thank you, Alice. Hello Carol!",
                "Carol reads: Thank you, Alice. Hello Carol!",
            ],
        )
        self.assertEqual(re.findall(r" ([A-Z]+)$", done.stdout, re.MULTILINE), ["ENCRYPT", "DISCOURAGE", "ENCRYPT"])

    def test_without_gnupg(self):
        with tempfile.TemporaryDirectory() as nothing:
            done = subprocess.run([sys.executable, EXAMPLE], capture_output=True, text=True, env={"PATH": nothing})
        self.assertEqual((done.returncode, done.stdout), (1, ""))
        self.assertRegex(done.stderr, r"\Aopenpgp: [^\n]*gpg[^\n]*\n\Z")


if __name__ == "__main__":
    unittest.main()
