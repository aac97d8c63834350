"""Mailboxes made from a seed: messages of many senders, each with the time at which a server received it.

They agree with one another (C11): the key and the preference that a message brings its sender are made from the address and
the effective date alone, so that two messages of one date bring the same.
"""

from __future__ import annotations

import base64
import hashlib
import random
from dataclasses import dataclass
from datetime import datetime, timedelta, timezone
from email.utils import format_datetime

DAY = 86_400
BEGIN = 1_600_000_000
DAYS = 120  # long enough for gaps of more than 35 days (A3)
LONGEST = 65_536  # octets of a block (B1)

BODY = b"From: nobody@body.example\r\nAutocrypt: addr=nobody@body.example; keydata=Zm9v\r\n\r\nText.\r\n"
ZONES = (0, 60, -300, 330, -570, 765)  # in minutes


@dataclass(frozen=True)
class Letter:
    """A message: its header block, with the empty line that ends it, what follows, and when it was received."""

    block: bytes
    body: bytes
    receipt: int
    zone: timezone

    def internal_date(self) -> datetime:
        return moment(self.receipt, self.zone)


def moment(seconds: int, zone: timezone) -> datetime:
    return (datetime(1970, 1, 1, tzinfo=timezone.utc) + timedelta(seconds=seconds)).astimezone(zone)


def address_of(number: int) -> bytes:
    """Capitals, signs and letters beyond ASCII among the addresses, in a name and in a domain."""
    forms = ("p{}@one.example", "Ann.{}@Two.Example", "zoË{}@three.example", "a+b-{}=c@4.example", "X{}@FIVE", "jan{}@BÜCHER.example")
    return forms[number % 6].format(number).encode()


def canonical(address: bytes) -> bytes:
    """As L8 has it, for the letters of these addresses."""
    return address.decode().lower().replace("bücher", "xn--bcher-kva").encode()


class Letters:
    """Letters of so many senders, and what these are called in a table."""

    def __init__(self, seed: int, senders: int) -> None:
        self._random = random.Random(seed)
        self._senders = list(range(senders))
        self.addresses = [canonical(address_of(number)) for number in self._senders]

    def mailbox(self, count: int) -> list[Letter]:
        """So many letters, among them one of each sender at least, and some that are refused."""
        first = [self.good(sender) for sender in self._senders]
        special = [self.longest(0), self.longest(1), self.without_fields()]
        rest = [self.any() for _ in range(count - len(first) - len(special))]
        made = [*first, *special, *rest]
        self._random.shuffle(made)
        return made

    def any(self) -> Letter:
        sender = self._random.choice(self._senders)
        return self.refused(sender) if self._random.randrange(12) == 0 else self.good(sender)

    def good(self, sender: int) -> Letter:
        date = self._date()
        receipt, dates = self._dated(date)
        return self._letter([self._from(sender), *dates, *self._keys(sender, date), *self._others()], receipt)

    def refused(self, sender: int) -> Letter:
        """One that gives 4, 5 or 6, and has a key."""
        date = self._date()
        receipt, dates = self._dated(date)
        author, keys = self._from(sender), [key_field(address_of(sender), date, 0)]
        kind = self._random.randrange(7)
        if kind == 0:
            return self._letter([*dates, *keys, *self._others()], receipt)
        if kind == 1:
            return self._letter([author, author, *dates, *keys], receipt)
        if kind == 2:
            return self._letter([b"From: a@one.example, b@one.example", *dates, *keys], receipt)
        if kind == 3:
            return self._letter([b"From: A B a@one.example", *dates, *keys], receipt)
        if kind == 4:
            report = b"Content-Type: Multipart/Report;\r\n report-type=delivery-status"
            return self._letter([author, *dates, *keys, report], receipt)
        if kind == 5:
            return self._letter([author, *dates, *keys, b"a line without its sign"], receipt)
        return self._letter([author, *dates, *keys], receipt, opening=b" continues nothing\r\n")

    def longest(self, more: int) -> Letter:
        """The longest block, or one that is longer and gives 4."""
        date = self._date()
        fields = [self._from(0), key_field(address_of(0), date, 0)]
        length = sum(len(field) + 2 for field in fields)
        return self._letter([*fields, b"X: " + b"x" * (LONGEST + more - length - 7)], date, whole=True)

    def without_fields(self) -> Letter:
        """Nothing but the empty line; it gives 5."""
        return self._letter([], self._date(), whole=True)

    def _letter(self, fields: list[bytes], receipt: int, opening: bytes = b"", whole: bool = False) -> Letter:
        """The fields in any order, with CRLF behind each line; some letters that need not be whole end with their fields."""
        self._random.shuffle(fields)
        block = opening + b"".join(field + b"\r\n" for field in fields)
        zone = timezone(timedelta(minutes=self._random.choice(ZONES)))
        if whole or self._random.randrange(9):
            return Letter(block + b"\r\n", BODY, receipt, zone)
        return Letter(block, b"", receipt, zone)

    def _date(self) -> int:
        """An effective date. There are few enough that a sender writes several letters at one."""
        return BEGIN + self._random.randrange(4 * DAYS) * DAY // 4

    def _dated(self, date: int) -> tuple[int, list[bytes]]:
        """Receipt time and Date fields that make this the effective date (D1, D2)."""
        later = self._random.randrange(1, 3 * DAY)
        zone = timezone(timedelta(minutes=self._random.choice(ZONES)))
        sent = b"Date: " + format_datetime(moment(date, zone)).encode()
        to_come = b"date: " + format_datetime(moment(date + later, zone)).encode()
        kinds = ((date + later, [sent]), (date, [to_come]), (date, []), (date, [b"Date: long ago"]), (date, [sent, to_come]))
        return self._random.choices(kinds, (8, 1, 1, 1, 1))[0]

    def _from(self, sender: int) -> bytes:
        address = address_of(sender)
        address = self._random.choice((address, canonical(address)))
        forms = (b"From: %s", b"FROM:<%s>", b"From: One\r\n <%s>", b'from:\t"One, Some" <%s> (him)', b"From: they:\r\n\t%s;")
        return self._random.choice(forms) % address

    def _keys(self, sender: int, date: int) -> list[bytes]:
        """What Autocrypt fields a sender puts into a letter: each has a habit."""
        habit, stranger = sender % 4, address_of(sender + 1)
        if habit == 0 or habit == 1 and self._random.randrange(2) or habit == 2 and date < BEGIN + DAYS // 3 * DAY:
            good = key_field(address_of(sender), date, self._random.randrange(3))
            spoiled = good.replace(b"addr=", b"type=1; addr=", 1)
            return self._random.choice([[good], [good], [good, spoiled], [good, key_field(stranger, date, 0)], [good, good]])
        return []

    def _others(self) -> list[bytes]:
        """Fields that nobody looks at, and recipients."""
        fields = [
            b"Received: from there by here\r\n\twith words; Mon, 1 Jan 1990 00:00:00 +0000",
            b"Subject: \xc3\xa9\xff and\r\n \r\n more",
            b"To: Reader <reader@x.example>,\r\n other@x.example",
            b"Content-Type: multipart/reporting; boundary=b",
            b"Autocrypt-Gossip: addr=reader@x.example; keydata=Zm9v",
            b"Message-ID: <%d@x.example>" % self._random.randrange(10**9),
        ]
        return self._random.sample(fields, self._random.randrange(len(fields)))


def key_field(address: bytes, date: int, form: int) -> bytes:
    """The field of this address and date: its key is folded after 76 characters, not at all, or after 61."""
    fresh = hashlib.shake_256(canonical(address) + b" %d" % date).digest(2_048 + 2)
    length = (396, 1_758, 2_048, 1, 1 + fresh[-1] * 8)[fresh[-2] % 5]
    text = base64.b64encode(fresh[:length])
    mutual = b"prefer-encrypt=mutual; " if fresh[-1] % 2 else b""
    if form == 0:
        return b"Autocrypt: addr=" + canonical(address) + b"; " + mutual + b"keydata=\r\n " + folded(text, 76, b"\r\n ")
    if form == 1:
        return b"Autocrypt: addr=" + address + b"; " + mutual + b"keydata=" + text
    return b"autocrypt:\r\n\t_x=(;" + b"_=;" + mutual + b"addr=\r\n " + address + b" ;keydata=" + folded(text, 61, b" \r\n\t")


def folded(text: bytes, width: int, fold: bytes) -> bytes:
    return fold.join(text[at : at + width] for at in range(0, len(text), width))
