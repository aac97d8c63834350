"""The table, and the calls on it.

A table's octets stand in memory that only this module knows. It is lent to one call at a time: every call holds the
table's guard, and since a call runs without the interpreter's lock, the guard is what keeps other threads out, with such a
lock or without one.

A key is handed out as a view of a copy of its octets, which is never written. A call that wrote the table releases every
such view, so that a late use raises; a view whose buffer someone holds at that moment, or whose turn did not come because
the call was interrupted, is released by a later write. What a caller made out of a view, a slice say, keeps the copy alive,
and goes on reading the key that it was made of.

A call of a Python function costs about as much as the conversion of an argument for the library. So the calls on a table
know what they are nearly always given by its exact type, in place, and ask `_arguments` about all else; and they enter
`_release` only where a view may be out. The two calls for advice share one function, and so each costs one such call
more.
"""

from __future__ import annotations

import ctypes
import enum
import threading
import weakref
from dataclasses import dataclass
from typing import Any, Callable, NamedTuple, Optional

from . import _library
from ._arguments import Octets, number, octets, truth
from ._files import FilePath, read_file, replace_file
from ._refusals import refusal

SLOT = 4_392
"""The octets of a slot."""

SLOTS = 256
"""The largest number of slots of a table."""


class Gossip(enum.IntEnum):
    """Whether the gossip in a mail's payload is taken. It is with TAKE alone: UNSET, which says nothing, skips as SKIP does."""

    UNSET = 0
    TAKE = 1
    SKIP = 2


class Advice(enum.IntEnum):
    """Whether a new mail should be encrypted, from low to high.

    DISABLE      it cannot be, since someone has no key
    DISCOURAGE   it can be, but someone may not be able to read it
    AVAILABLE    it can be, if the user asks for it
    ENCRYPT      it should be
    """

    DISABLE = 1
    DISCOURAGE = 2
    AVAILABLE = 3
    ENCRYPT = 4


_ADVICE = {advice.value: advice for advice in Advice}  # looked up in a fraction of the time of Advice(number)


class QuickAdvice(NamedTuple):
    """An advice, and how many recipients were looked up for it.

    With DISABLE the last of these is the first for whom nothing can be encrypted: `looked_up` is the place of that one,
    counted from 1. With any other advice it is the length of the list.
    """

    advice: Advice
    looked_up: int


def read_octets(path: FilePath) -> bytes:
    """The octets of a table file. Where it is longer than any table, there are enough of them to be refused."""
    return read_file(path, SLOTS * SLOT)


def check(table: Octets) -> None:
    """Raise `Refused` (1, 2) unless these octets are a table."""
    lent = octets(table, "table")
    answer: _library.Answer = _library.check(lent, len(lent))
    if answer.number:
        raise refusal(answer.number, answer.index)


def convert(table: Octets) -> Table:
    """A table of today, made of octets that an older version may have stored.

    Up to version 0.3 addresses differed by the case of letters with accents, and of Greek and Cyrillic letters. A table
    with such a capital is refused (2) by every other call. Here each entry gets its address in small letters, and
    entries that then have one address become one, in the lowest of their slots. It has the largest last seen of them,
    the direct key with the largest timestamp, and the gossip key likewise. Octets that are a table already make just
    that table.

    The octets are copied, and stay as they are. Raises `Refused` (1, 2) if they are no table by the older rule either.
    """
    lent = octets(table, "table")
    memory = ctypes.create_string_buffer(lent, len(lent))
    answer: _library.Answer = _library.convert(memory, len(lent))
    if answer.number:
        raise refusal(answer.number, answer.index)
    return Table(memory.raw)


class Table:
    """A table of correspondents, one in each slot, that owns its octets.

    `Table(octets)` takes a copy of octets that were a table's before, and raises `Refused` (1, 2) if they are no table.
    What a version before 0.4 stored may need `convert` instead.
    Nothing leads to the octets that it owns: `bytes(table)` is a copy, and a key is a view of a copy of that key, which the
    next write of the table releases. A table can be pickled and copied; the copy shares nothing with it. All calls may be
    made from any thread, but not from a signal handler: it would wait for the call that it interrupted.
    """

    def __init__(self, table: Octets) -> None:
        lent = octets(table, "table")
        check(lent)
        self._guard = threading.Lock()
        self._memory = ctypes.create_string_buffer(lent, len(lent))
        self._address = ctypes.addressof(self._memory)  # what each call is lent, with the length: made once
        self._length = len(lent)
        self._views: set[weakref.ref[memoryview]] = set()

    @classmethod
    def new(cls, slots: int = SLOTS) -> Table:
        """A table of free slots. Raises `Refused` (1) unless there are 1 to 256 of them."""
        # a larger number is refused just as 257 is, without its memory
        return cls(bytes(SLOT * min(number(slots, "slots"), SLOTS + 1)))

    @classmethod
    def load(cls, path: FilePath) -> Table:
        """The table that a file holds. Raises `Refused` (1, 2) if it holds none. The file stays as it is."""
        return cls(read_octets(path))

    def save(self, path: FilePath) -> None:
        """Store the table as a file.

        The file is replaced whole: whatever happens, the path then leads to the old file or to the new one. What someone
        else saved since this table was loaded is lost: `open_table` keeps others out meanwhile.
        """
        replace_file(path, bytes(self))

    @property
    def slots(self) -> int:
        """The number of slots, free ones included."""
        return self._length // SLOT

    def __bytes__(self) -> bytes:
        with self._guard:
            return self._memory.raw

    def __repr__(self) -> str:
        return f"<Table of {self.slots} slots>"

    def __reduce__(self) -> tuple[type[Table], tuple[bytes]]:
        return type(self), (bytes(self),)

    # The rest is for the functions below, which hold the guard.

    def _view(self, start: int, length: int) -> memoryview:
        """A view of a copy of a part of the table, to be released by the next write."""
        view = memoryview(self._memory[start : start + length])  # type: ignore[arg-type]  # the slice is bytes
        self._views.add(_HandedOut(view, self._views.discard))
        return view

    def _release(self) -> None:
        """The table was written: release the views of what it held before."""
        for handed_out in self._views.copy():
            view = handed_out()
            try:
                if view is not None:
                    view.release()
            except BufferError:
                # Someone holds the view's buffer this moment; it is a copy, which no one writes. The view is
                # released by a later write.
                continue
            self._views.discard(handed_out)


class _HandedOut(weakref.ref[memoryview]):
    """A view that may be out; forgotten as its holder drops it.

    In a set it stands for itself. A plain reference would be hashed and compared as the octets that the view shows, so
    that of two views of one key only one would be kept.
    """

    __slots__ = ()
    __hash__ = object.__hash__
    __eq__ = object.__eq__


def _need_table(table: Table) -> None:
    if not isinstance(table, Table):
        raise TypeError(f"table must be a Table, not {type(table).__name__}")


def _asked(table: Table, recipients: Octets, mutual: bool, reply: bool) -> tuple[bytes, bool, bool]:
    """The arguments of the calls for advice and keys, where one is not of the type that it nearly always has."""
    _need_table(table)
    return octets(recipients, "recipients"), truth(mutual, "mutual"), truth(reply, "reply")


def _advised(call: Callable[..., Any], table: Table, recipients: Octets, mutual: bool, reply: bool) -> Any:
    """What `recommend` or `recommend_quick` of the library answers, if it does not refuse."""
    if type(table) is not Table or type(recipients) is not bytes or type(mutual) is not bool or type(reply) is not bool:
        recipients, mutual, reply = _asked(table, recipients, mutual, reply)
    with table._guard:
        answer = call(table._address, table._length, recipients, len(recipients), mutual, reply)
    refused = answer.number
    if refused:
        raise refusal(refused, answer.index)
    return answer


def process(
    table: Table, receipt: int, outer: Octets, payload: Octets = b"", gossip: Gossip = Gossip.UNSET
) -> None:
    """Take one received mail into the table.

    `receipt` is when the mail came in, counted in seconds from the beginning of 1970 in UTC. `outer` is the mail's header
    block: its octets as they came in, up to the first empty line. `payload` is the header block of the root part inside a
    decrypted mail; a mail that was not encrypted has none. To take the gossip in it, the keys of other recipients, pass
    `Gossip.TAKE`. With any other setting the payload is not looked at: every new address that gossip is about takes a slot,
    so it has to be asked for. Raises `Refused` (3 to 8, and 7 only with `Gossip.TAKE`) and leaves the table as it was, or
    releases the views of keys that were handed out before.
    """
    if type(table) is not Table:
        _need_table(table)
    if type(receipt) is not int or receipt >> 64:  # not 0 for numbers below 0 and for those of more than 64 bits
        receipt = number(receipt, "receipt")
    if type(outer) is not bytes:
        outer = octets(outer, "outer")
    if type(payload) is not bytes:
        payload = octets(payload, "payload")
    if type(gossip) is not Gossip:  # an enumeration has no subclasses
        raise TypeError(f"gossip must be a Gossip, not {type(gossip).__name__}")
    with table._guard:
        answer: _library.Answer = _library.process(
            table._address, table._length, receipt, outer, len(outer), payload, len(payload), gossip
        )
        refused = answer.number
        if not refused and table._views:
            table._release()
    if refused:
        raise refusal(refused, answer.index)


def recommend(table: Table, recipients: Octets, mutual: bool = False, reply: bool = False) -> Advice:
    """Should a new mail to these people be encrypted?

    `recipients` is a list of 1 to 100 addresses as in a To field, but without line endings. `mutual` is the user's own
    preference. `reply` says that the mail replies to an encrypted one. Raises `Refused` (10).
    """
    answer: _library.AdviceAnswer = _advised(_library.recommend, table, recipients, mutual, reply)
    return _ADVICE[answer.advice]


def recommend_quick(table: Table, recipients: Octets, mutual: bool = False, reply: bool = False) -> QuickAdvice:
    """The advice of `recommend`, for a window that asks after every letter; and which recipient the window can mark.

    It takes what `recommend` takes, and costs the same. Recipients are looked up in the order of the list, and none
    behind the first for whom nothing can be encrypted. The place of that one, counted from 1, comes with the advice;
    where there is no such recipient, the length of the list does. `target_key` counts from 0, and has it at
    `looked_up - 1`. The list is read to its end all the same: raises `Refused` (10) just where `recommend` does.
    """
    answer: _library.QuickAnswer = _advised(_library.recommend_quick, table, recipients, mutual, reply)
    return QuickAdvice(_ADVICE[answer.advice], answer.looked_up)


def target_key(
    table: Table, recipients: Octets, mutual: bool = False, reply: bool = False, place: int = 0
) -> Optional[memoryview]:
    """The key to encrypt to for the recipient at a place of the list, counted from 0.

    It is a read-only view of a copy of the key's octets. The next write of the table releases the view, or a later one
    where someone holds the view's buffer just then: take `bytes(key)` to keep the octets longer. The answer is None if that
    recipient has no key, if the place is past the list, and if `recommend` refuses.
    """
    if type(table) is not Table or type(recipients) is not bytes or type(mutual) is not bool or type(reply) is not bool:
        recipients, mutual, reply = _asked(table, recipients, mutual, reply)
    if type(place) is not int or place >> 64:
        place = number(place, "place")
    with table._guard:
        part: _library.Part = _library.target_key(
            table._address, table._length, recipients, len(recipients), mutual, reply, place
        )
        length = part.length
        return table._view(part.start, length) if length else None


@dataclass(frozen=True)
class Entry:
    """What a used slot held as `entries` read it.

    The address is in canonical form; `display` shows it in the script of its domain. None stands for what is absent. Times
    count the seconds from the beginning of 1970 in UTC. The direct key came in the correspondent's own mail, the gossip
    key in that of others. Both are views of copies, which end as those of `target_key` do; all else stays.
    """

    slot: int
    address: bytes
    last_seen: Optional[int]
    autocrypt_timestamp: Optional[int]
    direct_key: Optional[memoryview]
    mutual: bool
    gossip_timestamp: Optional[int]
    gossip_key: Optional[memoryview]


def entries(table: Table) -> list[Entry]:
    """The entries of a table, in the order of its slots.

    Their keys are read-only views of copies of the keys' octets, and end as those of `target_key` do.
    """
    _need_table(table)
    numbers = _library.Numbers()
    with table._guard:
        found = (_entry(table, slot, numbers) for slot in range(table.slots))
        return [entry for entry in found if entry is not None]


def _entry(table: Table, slot: int, numbers: _library.Numbers) -> Optional[Entry]:
    """What a slot holds, if anything; `numbers` is written.

    A call checks all of the table that it is lent, and each slot of a table is a table by itself: so the one slot is lent.
    """
    start = slot * SLOT
    answer: _library.Answer = _library.entry(table._address + start, SLOT, 0, numbers, _library.NUMBERS)
    if answer.number:
        raise refusal(answer.number, slot)
    if not numbers.used:
        return None
    bits, address = numbers.bits, start + numbers.address_start
    direct, gossip = bits & _library.BIT_DIRECT, bits & _library.BIT_GOSSIP
    return Entry(
        slot=slot,
        address=table._memory[address : address + numbers.address_length],  # type: ignore[arg-type]  # the slice is bytes
        last_seen=numbers.last_seen if bits & _library.BIT_LAST_SEEN else None,
        autocrypt_timestamp=numbers.autocrypt_timestamp if direct else None,
        direct_key=table._view(start + numbers.direct_start, numbers.direct_length) if direct else None,
        mutual=bool(bits & _library.BIT_MUTUAL),
        gossip_timestamp=numbers.gossip_timestamp if gossip else None,
        gossip_key=table._view(start + numbers.gossip_start, numbers.gossip_length) if gossip else None,
    )
