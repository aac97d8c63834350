"""Outgoing mail looked over: what is wrong with its Autocrypt and Autocrypt-Gossip fields."""

from __future__ import annotations

import ctypes
import enum
from typing import NamedTuple

from . import _library
from ._arguments import Octets, octets
from ._refusals import refusal

_List = ctypes.c_uint32 * (3 * _library.FAULTS)  # three numbers for each fault; no mail has more


class Block(enum.IntEnum):
    """A header block of a mail: its own, or that of the root part that is going to be encrypted."""

    OUTER = 0
    PAYLOAD = 1

    @property
    def words(self) -> str:
        """What the command calls it."""
        return self.name.lower()


class FaultKind(enum.IntEnum):
    """What can be wrong with an outgoing mail; `words` says it in words.

    NO_VALID is about the outer block. MORE_VALID and WRONG_ADDRESS are about Autocrypt fields of that block, the last
    three about Autocrypt-Gossip fields of either block, and the two between about fields of both names.
    """

    NO_VALID = 1
    MORE_VALID = 2
    WRONG_ADDRESS = 3
    UNKNOWN_ATTRIBUTE = 4
    KEY_DATA = 5
    GOSSIP_OUTSIDE = 6
    GOSSIP_UNLISTED = 7
    GOSSIP_PREFERENCE = 8

    @property
    def words(self) -> str:
        """What is wrong, in words."""
        return _WORDS[self]


_WORDS = {
    FaultKind.NO_VALID: "no valid Autocrypt field",
    FaultKind.MORE_VALID: "another valid Autocrypt field stands before it",
    FaultKind.WRONG_ADDRESS: "its address is not the sender's",
    FaultKind.UNKNOWN_ATTRIBUTE: "an unknown critical attribute",
    FaultKind.KEY_DATA: "key data not last or not Base64",
    FaultKind.GOSSIP_OUTSIDE: "gossip outside the payload",
    FaultKind.GOSSIP_UNLISTED: "gossip about somebody who is not a recipient",
    FaultKind.GOSSIP_PREFERENCE: "gossip with a preference",
}

_BLOCKS = {block.value: block for block in Block}  # looked up in a fraction of the time of Block(number)
_KINDS = {kind.value: kind for kind in FaultKind}


class Fault(NamedTuple):
    """Something that is wrong with an outgoing mail.

    `place` is that of the field among all fields of its block, whatever their names, counted from 1. It is 0 with
    NO_VALID, which is about no field.
    """

    block: Block
    place: int
    kind: FaultKind


def lint(outer: Octets, payload: Octets = b"") -> list[Fault]:
    """What is wrong with the Autocrypt and Autocrypt-Gossip fields of a mail that is about to be sent.

    `outer` is the mail's header block, up to the first empty line. `payload` is the header block of the root part that
    is going to be encrypted, where there is one. Faults of the outer block come first; in a block they stand by place,
    and at one place by kind. The list is empty where nothing is wrong: so it is where `autocrypt_field` wrote the one
    Autocrypt field, for the sender, and `gossip_field` all gossip, about recipients and for the payload alone. Raises
    `Refused` (4, 5, 7).
    """
    lent, lent_payload = octets(outer, "outer"), octets(payload, "payload")
    faults = _List()
    answer: _library.Linted = _library.lint(lent, len(lent), lent_payload, len(lent_payload), faults, len(faults))
    if answer.number:
        raise refusal(answer.number)
    numbers = iter(faults[: 3 * answer.count])
    return [Fault(_BLOCKS[block], place, _KINDS[kind]) for block, place, kind in zip(numbers, numbers, numbers)]


def field_names(block: bytes) -> list[str]:
    """The names of the fields of a block that is readable, as they stand there, in their order."""
    names = []
    for line in block.split(b"\n"):
        if line in (b"", b"\r"):  # the empty line, or the end of the block
            break
        if line[:1] not in (b" ", b"\t"):  # else it goes on with the field above it
            names.append(line.partition(b":")[0].decode("ascii"))
    return names
