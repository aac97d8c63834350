#!/usr/bin/env python3
"""A small front end: it reads a mailbox on an IMAP server, and prints what is known of those who wrote to it.

    python examples/imap_fetch.py imap.a.example --user alice
    python examples/imap_fetch.py imap.a.example --user alice --mailbox Archive --connections 4 --table FILE

The password is taken from the environment (IMAP_PASSWORD), or asked for on a terminal.

It fetches the header block of each message, without marking it as read, and the time at which the server received it. Each
block is lent to `vienghulac.process` for one call and is freed behind it; what stays is the table. Several connections fetch
at the same time, so the messages come in no order of their own. That does not matter (docs/SCOPE.md, C11): whichever comes
first, the entries are the same in the end, unless the table was too small (refusal 8), or someone sent different keys within
one second. Encrypted mail is not opened here, so no gossip is taken; examples/openpgp.py does that.

The table's file is locked meanwhile, so that no other program writes to it, and replaced when all is read. Where something
fails before, that is one line on standard error and exit status 1, and the file is as it was: the next run begins anew. A
file that a version of the library before 0.4 wrote may be refused (2) until `vienghulac convert FILE` was run.
"""

from __future__ import annotations

import argparse
import asyncio
import base64
import contextlib
import getpass
import imaplib
import io
import os
import random
import re
import ssl
import sys
from collections import Counter, deque
from concurrent.futures import ThreadPoolExecutor
from dataclasses import dataclass, field
from datetime import datetime, timezone
from email.utils import mktime_tz, parsedate_tz
from typing import Any, Callable, Iterator, Optional, Sequence

from vienghulac import REFUSALS, Entry, Refused, Table, entries, open_table, process

BATCH = 100
"""How many messages one command asks for: its line stays short, and its answer is soon over."""

Batches = deque[list[str]]
"""Identifiers of messages that nobody has fetched yet. Threads share it; its own methods keep them apart."""


class Failure(Exception):
    """What ends the program; its words are the one line that tells of it."""


@dataclass(frozen=True)
class Account:
    """A mailbox on a server, and how to get at it."""

    host: str
    port: int
    tls: bool
    timeout: float
    user: str
    password: str = field(repr=False)
    mailbox: str


# The server. These functions wait for it, so they are run in threads.


@contextlib.contextmanager
def failing(doing: str) -> Iterator[None]:
    """Tell what was being done, where the server or the network fails."""
    try:
        yield
    except imaplib.IMAP4.abort as error:
        raise Failure(f"{doing}: the connection broke off ({error})") from error
    except (imaplib.IMAP4.error, OSError, UnicodeError) as error:  # the last of a host's name that cannot be one
        raise Failure(f"{doing}: {error}") from error


def granted(answer: tuple[str, list[Any]]) -> list[Any]:
    """What the server answers to a command that it obeys."""
    status, data = answer
    if status != "OK":
        raise imaplib.IMAP4.error(b" ".join(data).decode("utf-8", "replace"))
    return data


def quoted(name: str) -> str:
    """The name of a mailbox as IMAP spells it: all but printable ASCII in an UTF-7 of its own, and in quotation marks."""

    def spelled(run: re.Match[str]) -> str:
        return "&" + base64.b64encode(run[0].encode("utf-16-be", "surrogatepass"), b"+,").decode().rstrip("=") + "-"

    return '"' + re.sub(r'[\\"]', r"\\\g<0>", re.sub(r"[^ -~]+", spelled, name.replace("&", "&-"))) + '"'


@contextlib.contextmanager
def connection(account: Account) -> Iterator[imaplib.IMAP4]:
    """A connection that is logged in and has the mailbox open, for reading only."""
    with failing(f"connecting to {account.host}, port {account.port}"):
        if account.tls:
            context = ssl.create_default_context()
            imap: imaplib.IMAP4 = imaplib.IMAP4_SSL(
                account.host, account.port, ssl_context=context, timeout=account.timeout
            )
        else:
            imap = imaplib.IMAP4(account.host, account.port, timeout=account.timeout)
    try:
        with failing(f"logging in as {account.user}"):
            # not LOGIN, in which imaplib can put neither blanks nor letters beyond ASCII
            imap.authenticate("PLAIN", lambda _: os.fsencode(f"\0{account.user}\0{account.password}"))
        with failing(f"opening the mailbox {account.mailbox}"):
            granted(imap.select(quoted(account.mailbox), readonly=True))
        yield imap
    finally:
        with contextlib.suppress(imaplib.IMAP4.error, OSError):
            imap.logout()


def identifiers(account: Account) -> list[str]:
    """The unique identifiers of all messages of the mailbox."""
    with connection(account) as imap, failing(f"listing the mailbox {account.mailbox}"):
        # not SEARCH, whose answer for a large mailbox is one line, longer than imaplib reads
        listed = granted(imap.uid("FETCH", "1:*", "(UID)"))
    found = [re.search(rb"\bUID (\d+)", one) for one in listed if isinstance(one, bytes)]
    return [uid[1].decode() for uid in found if uid]


def messages(imap: imaplib.IMAP4, uids: list[str]) -> Iterator[tuple[int, bytes]]:
    """Receipt time and header block of each of these messages that is still there.

    imaplib answers a list, in which a message is a pair, of the words before its block and the block, and behind that the
    words after it. It is taken apart from its end, so that each block is let go of when its turn is over.
    """
    with failing("fetching"):
        answered = granted(imap.uid("FETCH", ",".join(uids), "(INTERNALDATE BODY.PEEK[HEADER])"))
    after = b""
    while answered:
        part = answered.pop()
        if isinstance(part, tuple):
            yield receipt_time(part[0] + after), part[1]
            part = None
        after = part or b""


def receipt_time(words: bytes) -> int:
    """The time that INTERNALDATE tells, in seconds since 1970; one before that counts as 0, as such a Date does (D13)."""
    told = re.search(r'\bINTERNALDATE "([^"]*)"', words.decode("ascii", "replace"))
    parts = parsedate_tz(told[1]) if told else None
    if parts is None:
        raise Failure("fetching: a message came without the time of its receipt")
    return max(0, int(mktime_tz(parts)))


# The library.


def number_of(table: Table, receipt: int, block: bytes) -> int:
    """What `process` answers to a message: 0, or the number of the refusal, which changed nothing."""
    try:
        process(table, receipt, block)
    except Refused as refused:
        return refused.number
    return 0


def read(account: Account, batches: Batches, table: Table) -> Counter[int]:
    """Hand one batch after the other to the library, over a connection of its own; count the answers by number.

    Threads do this at the same time. They share the table, in which calls wait for each other.
    """
    numbers: Counter[int] = Counter()
    with connection(account) as imap:
        while True:
            try:
                batch = batches.popleft()
            except IndexError:
                return numbers
            numbers.update(number_of(table, receipt, block) for receipt, block in messages(imap, batch))


async def read_mailbox(account: Account, table: Table, connections: int, seed: Optional[int]) -> tuple[int, Counter[int]]:
    """Hand all messages of a mailbox to the library: how many there were, and how many got each answer."""
    asyncio.get_running_loop().set_default_executor(ThreadPoolExecutor(connections))
    uids = await asyncio.to_thread(identifiers, account)
    if seed is not None:
        random.Random(seed).shuffle(uids)
    batches: Batches = deque(uids[at : at + BATCH] for at in range(0, len(uids), BATCH))
    try:
        counted = await asyncio.gather(*(asyncio.to_thread(read, account, batches, table) for _ in range(connections)))
    finally:
        batches.clear()  # when one connection fails, the others stop behind their batch
    return len(uids), sum(counted, Counter())


# The user.


def printable(text: str) -> str:
    """A text for a terminal: strangers chose it, so nothing in it may steer the terminal."""
    return "".join(letter if letter.isprintable() else ascii(letter)[1:-1] for letter in text)


def moment(seconds: Optional[int]) -> str:
    return "-" if seconds is None else datetime.fromtimestamp(seconds, timezone.utc).strftime("%Y-%m-%d %H:%M:%S")


def row(entry: Entry) -> tuple[str, ...]:
    return (
        printable(entry.address.decode("utf-8", "backslashreplace")),
        moment(entry.last_seen),
        moment(entry.autocrypt_timestamp),
        str(len(entry.direct_key or b"")),
        "mutual" if entry.mutual else "none",
        moment(entry.gossip_timestamp),
        str(len(entry.gossip_key or b"")),
    )


def show(table: Table, listed: int, numbers: Counter[int]) -> None:
    """Print how the messages were answered, and the table by address. Times are UTC."""
    print(f"{sum(numbers.values())} of {listed} messages")
    for number in sorted(numbers):
        print(f"{numbers[number]:>8}  {number:>2}  {REFUSALS.get(number, 'done')}")
    rows: list[tuple[str, ...]] = [("address", "last seen", "key of", "octets", "preference", "gossip of", "octets")]
    rows += [row(entry) for entry in sorted(entries(table), key=lambda entry: entry.address)]
    widths = [max(map(len, column)) for column in zip(*rows)]
    for cells in rows:
        print("  ".join(cell.ljust(width) for cell, width in zip(cells, widths)).rstrip())


@contextlib.contextmanager
def opened(path: Optional[str]) -> Iterator[Table]:
    """A new table; or that of a file, which is replaced at the end, and which no other program writes to until then."""
    if path is None:
        yield Table.new()
        return
    try:
        with open_table(path, waiting=lambda lock: print(f"imap_fetch: waiting for {lock}", file=sys.stderr)) as table:
            yield table
    except Refused as refused:
        raise Failure(f"{path}: {refused}") from None


def password_of(user: str) -> str:
    password = os.environ.get("IMAP_PASSWORD")
    if password is None and not sys.stdin.isatty():
        raise Failure("no password: set IMAP_PASSWORD, or type it on a terminal")
    return getpass.getpass(f"Password of {user}: ") if password is None else password


def up_to(most: int) -> Callable[[str], int]:
    """What reads a number on the command line."""

    def number(text: str) -> int:
        if text.isascii() and text.isdigit() and 1 <= int(text) <= most:
            return int(text)
        raise argparse.ArgumentTypeError(f"{text!r} is not a whole number from 1 to {most}")

    return number


def options_of(arguments: Optional[Sequence[str]]) -> argparse.Namespace:
    about = "Read a mailbox on an IMAP server, and print what is known of those who wrote to it."
    parser = argparse.ArgumentParser(prog="imap_fetch.py", description=about)
    parser.add_argument("host", metavar="HOST", help="the server")
    parser.add_argument("--port", metavar="N", type=up_to(65_535), help="its port (default: 993, with --plain 143)")
    parser.add_argument("--plain", action="store_true", help="without TLS, for a server on this machine")
    parser.add_argument("--user", metavar="NAME", required=True, help="whose mail; IMAP_PASSWORD is the password")
    parser.add_argument("--mailbox", metavar="NAME", default="INBOX", help="which mailbox (default: INBOX)")
    parser.add_argument("--connections", metavar="N", type=up_to(32), default=2, help="how many fetch at a time (default: 2)")
    parser.add_argument("--shuffle", metavar="SEED", type=int, help="fetch in an order that is made from this number")
    parser.add_argument("--timeout", metavar="S", type=up_to(3_600), default=30, help="seconds to wait for it (default: 30)")
    parser.add_argument("--table", metavar="FILE", help="the table to go on with, or to begin, and to save when all is read")
    return parser.parse_args(arguments)


def main(arguments: Optional[Sequence[str]] = None) -> int:
    options = options_of(arguments)
    if isinstance(sys.stdout, io.TextIOWrapper):
        sys.stdout.reconfigure(errors="backslashreplace")  # a letter that the terminal lacks is no failure
    try:
        port = options.port or (143 if options.plain else 993)
        password = password_of(options.user)
        account = Account(options.host, port, not options.plain, options.timeout, options.user, password, options.mailbox)
        with opened(options.table) as table:
            listed, numbers = asyncio.run(read_mailbox(account, table, options.connections, options.shuffle))
    except (Failure, OSError) as failure:
        print(f"imap_fetch: {printable(str(failure))}", file=sys.stderr)
        return 1
    except KeyboardInterrupt:
        print("imap_fetch: interrupted", file=sys.stderr)
        return 130
    show(table, listed, numbers)
    return 0


if __name__ == "__main__":
    sys.exit(main())
