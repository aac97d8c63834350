"""The listing program."""

import sys

from scope import table as tables
from scope.table import SLOT, Entry

# W7: the largest table that it takes.
LISTING_SLOTS = 14


def listing(stdin: bytes) -> bytes:
    """What the listing program prints for its standard input."""
    # W7: longer input is refused with 1, whatever it holds.
    if len(stdin) > LISTING_SLOTS * SLOT:
        return refused(1)
    refusal, _ = tables.check(stdin)
    if refusal != 0:
        return refused(refusal)
    # W8: a line for each used slot, in order; none for a free one.
    return b"".join(line(entry) for entry in tables.entries(stdin) if entry is not None)


def refused(number: int) -> bytes:
    # W10: the word, the number and LF; the index of 2 is left out.
    return b"refused %d\n" % number


def line(entry: Entry) -> bytes:
    # W8: seven columns, a space between two of them and LF behind the last. W9: the
    # address as it is stored, and `none` also where there is no direct half.
    return b" ".join([
        entry.address,
        time(entry.last_seen),
        time(entry.autocrypt_timestamp),
        length(entry.direct_key),
        b"mutual" if entry.mutual else b"none",
        time(entry.gossip_timestamp),
        length(entry.gossip_key),
    ]) + b"\n"


def time(seconds: int | None) -> bytes:
    # W9: a number in base ten, or a hyphen for a time that is absent.
    return b"-" if seconds is None else b"%d" % seconds


def length(key: bytes | None) -> bytes:
    # W9: an absent key counts as 0 octets.
    return b"0" if key is None else b"%d" % len(key)


if __name__ == "__main__":
    sys.stdout.buffer.write(listing(sys.stdin.buffer.read()))
