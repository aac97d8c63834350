"""Mail for the tests: header blocks, their keys, and tables that hold them, with their lock files; and a table as
versions before 0.4 stored it."""

import base64
import os
from pathlib import Path

from scope.table import Entry, table_of

from vienghulac import Table, process

ROOT = Path(__file__).resolve().parents[2]
EXAMPLES = ROOT / "examples"

RECEIPT = 1_600_000_000

# T16: two spellings of one address, which those versions told apart. The second is the form of both.
CAPITAL, SMALL = "jÖrg@f.example".encode(), "jörg@f.example".encode()

# What a table of theirs may hold. The two become one (T18): last seen and gossip of the second, the key of the first.
OLD_ENTRIES = [
    Entry(b"alice@a.example", RECEIPT, RECEIPT, b"alice"),
    Entry(CAPITAL, RECEIPT, RECEIPT - 10, b"newer", True, RECEIPT, b"gone"),
    Entry(SMALL, RECEIPT + 5, RECEIPT - 20, b"older", False, RECEIPT + 1, b"gossip"),
    Entry("Éva@e.example".encode(), RECEIPT),
]
MERGED = Entry(SMALL, RECEIPT + 5, RECEIPT - 10, b"newer", True, RECEIPT + 1, b"gossip")
OLD_SLOT = 2  # the lowest that is refused


def old_table():
    """The octets of such a table: eight slots, with gaps between the entries."""
    alice, capital, small, eva = OLD_ENTRIES
    return table_of([None, alice, capital, None, small, eva, None, None])


def letter(sender, key=None, mutual=False, more=b""):
    """A header block from a sender, with a key of its own or none."""
    field = b""
    if key is not None:
        preference = b" prefer-encrypt=mutual;" if mutual else b""
        field = b"Autocrypt: addr=" + sender + b";" + preference + b" keydata=" + base64.b64encode(key) + b"\r\n"
    return b"From: " + sender + b"\r\n" + more + field + b"\r\n"


def gossip(*pairs):
    """A payload block with gossip about addresses."""
    return b"".join(
        b"Autocrypt-Gossip: addr=" + address + b"; keydata=" + base64.b64encode(key) + b"\r\n" for address, key in pairs
    )


def lock_of(table_file):
    """The path of a table file's lock file."""
    return table_file.with_name(f".{table_file.name}.lock")


def table_with(*senders, slots=8):
    """A table that holds a key of each sender, and the keys."""
    table = Table.new(slots)
    keys = [os.urandom(100) for _ in senders]
    for sender, key in zip(senders, keys):
        process(table, RECEIPT, letter(sender, key))
    return table, keys
