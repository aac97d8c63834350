"""Autocrypt Level 1 for mail programs.

Keys and preferences of correspondents are read from the mail that they send, and kept in a table:

    from vienghulac import Table, process, recommend, target_key, autocrypt_field

    table = Table.new()                                    # or Table.load("correspondents.table")
    process(table, receipt, header_block)                  # once for each received mail
    advice = recommend(table, b"bob@b.example")            # before sending one
    key = target_key(table, b"bob@b.example")              # what to encrypt it to
    field = autocrypt_field(b"alice@a.example", own_key)   # what to send with it
    table.save("correspondents.table")

Files: `table.save` replaces a file whole. Whoever reads it meanwhile, or after a crash, meets
the old table or the new one. A file that someone writes in place while it is read raises OSError.
Programs or threads that share a file change it in blocks of `open_table`, which holds a lock from
reading the table to replacing the file:

    with open_table("correspondents.table") as table:      # a new table where there is no file
        process(table, receipt, header_block)

Gossip: the payload of an encrypted mail may tell the keys of its other recipients. They are
taken only by a call that asks for them, since each new one takes a slot of the table:

    process(table, receipt, header_block, payload, Gossip.TAKE)

Marking: a window that asks for advice after every letter calls `recommend_quick`. It gives the
advice of `recommend` at the same cost, and says how many recipients were looked up. With DISABLE
the last of them is the first for whom nothing can be encrypted, and the count is its place, from 1:

    advice, looked_up = recommend_quick(table, recipients)  # Advice.DISABLE, 2: the second has no key

Older tables: a table that a version before 0.4 stored may be refused with 2. That version told
names apart by the case of letters with accents, and of Greek and Cyrillic letters. `convert` takes
the octets of such a table, puts together the entries that are one person's, and leaves a table of
today as it is. `vienghulac convert FILE` does it to a file:

    table = convert(octets)                                # Table(octets) would raise Refused (2)

Domains: a domain may be given in its own script, as UTF-8, or with labels that open with `xn--`.
Both are one address. It is stored and written in small letters, and with a domain of ASCII;
`display` shows it in its own script again. The library has no tables of Unicode: normalise what
people type (NFC), and see which characters IDNA permits, before a call. Letters that look alike
are different letters here, and are shown as they are:

    display(b"bob@xn--bcher-kva.example").decode()         # "bob@bücher.example"

Outgoing mail: `lint` lists what is wrong with the Autocrypt and Autocrypt-Gossip fields of a mail
that is about to be sent. It is for authors of mail programs, who try their mail with it before a
release; `vienghulac lint FILE` does it to a file:

    for block, place, kind in lint(header_block, payload):
        print(block.words, place, kind.words)              # outer 3 key data not last or not Base64

Rules: docs/SCOPE.md of the project says what each call does, for every input.

Ownership: a call borrows what it is given and keeps nothing of it. `bytes` are handed down as
they are. A bytearray or a memoryview is copied first, so that no other thread can change it
meanwhile.

Keys: a key comes back as a read-only memoryview of a copy of its octets. The next write of the
table, that is, the next `process` that is not refused, releases the view, and using it then
raises ValueError. It may be a later write that does: where someone holds the view's buffer at
that moment, such as a socket that is sending it in another thread, or where an interrupt breaks
the call off. Until then the view shows the key that it was made of. What was made out of it
before, such as a slice, a cast or another memoryview, shows that key for ever.

Stack: `process` takes up to 312,000 octets of its thread's stack, and `lint` up to 240,000. A thread
has more, unless `threading.stack_size` made it small; with less than 327,680 it must call neither.

Errors: a wrong type raises TypeError, and a number below 0 ValueError. All other input has an
answer or is refused. A refusal raises `Refused` with its number, and leaves everything as it was.
"""

from ._arguments import Octets
from ._fields import FieldValue, autocrypt_field, autocrypt_header, display, gossip_field, gossip_header
from ._linting import Block, Fault, FaultKind, lint
from ._refusals import REFUSALS, Refused
from ._shared import Locked, open_table
from ._table import (
    SLOT, SLOTS, Advice, Entry, Gossip, QuickAdvice, Table, check, convert, entries, process, recommend,
    recommend_quick, target_key,
)  # fmt: skip

__all__ = [
    "Advice",
    "Block",
    "Entry",
    "Fault",
    "FaultKind",
    "FieldValue",
    "Gossip",
    "Locked",
    "Octets",
    "QuickAdvice",
    "REFUSALS",
    "Refused",
    "SLOT",
    "SLOTS",
    "Table",
    "autocrypt_field",
    "autocrypt_header",
    "check",
    "convert",
    "display",
    "entries",
    "gossip_field",
    "gossip_header",
    "lint",
    "open_table",
    "process",
    "recommend",
    "recommend_quick",
    "target_key",
]
