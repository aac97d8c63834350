#!/usr/bin/env python3
"""Three people, keys made by GnuPG, and mail that only its recipients can open: what a mail program does around the library.

    python examples/openpgp.py

It needs the command gpg (GnuPG 2.2 or newer), works in temporary folders, and leaves nothing behind. The mails are kept short:
in a real one the encrypted text is a part of its own, by RFC 3156, and there are a Date and a Subject.
"""

import re
import shutil
import subprocess
import sys
import tempfile
import time

from vienghulac import Gossip, Table, autocrypt_field, gossip_field, process, recommend, target_key


class Person:
    """Someone with an address, a keyring of GnuPG, and a table of correspondents."""

    def __init__(self, name):
        self.name, self.address = name, f"{name.lower()}@mail.example"
        self.home = tempfile.mkdtemp(prefix="gpg-")
        self.table = Table.new(slots=16)

    def make_key(self):
        self.gpg("--quick-generate-key", self.address, "future-default", "default", "never")
        self.key = self.gpg("--export-options", "export-minimal", "--export", self.address)
        print(f"{self.name} has a key of {len(self.key)} octets.")

    def gpg(self, *words, given=b""):
        own = ["--homedir", self.home, "--batch", "--pinentry-mode", "loopback", "--passphrase", "", "--trust-model", "always"]
        return subprocess.run(["gpg", *own, *words], input=given, check=True, capture_output=True).stdout

    def leave(self):
        subprocess.run(["gpgconf", "--homedir", self.home, "--kill", "all"], check=True)
        shutil.rmtree(self.home)

    def head(self, to):
        """The header block of a mail, with the sender's own key."""
        plain = f"From: {self.address}\r\nTo: {to}\r\n".encode()
        return plain + autocrypt_field(self.address.encode(), self.key, mutual=True) + b"\r\n"

    def encrypted(self, to, gossip, text):
        """A payload, with gossip in its header block, encrypted to each recipient's target key."""
        recipients = []
        for place in range(to.count(",") + 1):
            key = target_key(self.table, to.encode(), place=place)
            done = self.gpg("--status-fd", "1", "--import", given=key).decode()
            # by its fingerprint: a keyring may hold other keys that name the same address
            recipients += ["--recipient", re.search(r"IMPORT_OK \d+ (\w+)", done)[1]]
        payload = b"Content-Type: text/plain\r\n" + gossip + b"\r\n" + text
        return self.gpg("--armor", "--encrypt", *recipients, given=payload)

    def receives(self, mail):
        """The mail is handed down, with the header block of its payload if it has one; back comes its text."""
        head, _, text = mail.partition(b"\r\n\r\n")
        payload = b""
        if text.startswith(b"-----BEGIN PGP MESSAGE-----"):
            payload, _, text = self.gpg("--decrypt", given=text).partition(b"\r\n\r\n")
        process(self.table, int(time.time()), head, payload, Gossip.TAKE)
        print(f"{self.name} reads: {text.decode()}")


def story(alice, bob, carol):
    print("\nBob and Carol write to Alice. Their mail is not encrypted yet, but it has their keys.")
    alice.receives(bob.head(alice.address) + b"Hello Alice, this is Bob.")
    alice.receives(carol.head(alice.address) + b"Hello Alice, this is Carol.")

    both = f"{bob.address}, {carol.address}"
    print("\nAlice writes to both. What does her program recommend?", recommend(alice.table, both.encode(), mutual=True).name)
    print("Inside the encrypted mail she tells each of them the other's key.")
    gossip = b"".join(gossip_field(person.address.encode(), person.key) for person in (bob, carol))
    mail = alice.head(both) + alice.encrypted(both, gossip, b"Bob, Carol: you should know each other.")
    bob.receives(mail)
    carol.receives(mail)

    all_others = f"{alice.address}, {carol.address}"
    print("\nBob answers to all. He never had a mail from Carol:", recommend(bob.table, carol.address.encode()).name)
    print("But this one answers an encrypted mail:", recommend(bob.table, all_others.encode(), reply=True).name)
    mail = bob.head(all_others) + bob.encrypted(all_others, b"", b"Thank you, Alice. Hello Carol!")
    alice.receives(mail)
    carol.receives(mail)


if __name__ == "__main__":
    if shutil.which("gpg") is None:
        sys.exit("openpgp: the command gpg is missing (on Debian, the packages gpg and gpg-agent)")
    people = [Person("Alice"), Person("Bob"), Person("Carol")]
    try:
        for person in people:
            person.make_key()
        story(*people)
    except subprocess.CalledProcessError as failed:
        sys.exit(f"openpgp: {failed.stderr.decode().strip()}")
    finally:
        for person in people:
            person.leave()
