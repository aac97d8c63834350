"""Refusals: the numbers, their words, and the exception that carries them."""

from __future__ import annotations

from typing import Optional

REFUSALS = {
    1: "the table does not have 1 to 256 whole slots",
    2: "the table has a damaged slot",
    3: "the receipt time lies beyond the year 9999",
    4: "the header block of the mail cannot be read",
    5: "no single From field with a single address",
    6: "the mail is a report, of type multipart/report",
    7: "gossip is wanted, but the payload block cannot be read",
    8: "too few free slots for the new addresses",
    9: "the address to write is not a plain one",
    10: "the recipients cannot be read, or are not 1 to 100",
    11: "the key to write is empty or over 2,048 octets",
    12: "too little room for the field, or for 11 numbers",
}
"""The words of each refusal, by its number. If several hold, the lowest number is given."""

_HINTS = {
    11: "export it as binary and with its newest signatures alone; Ed25519 and RSA-3072 keys then fit, RSA-4096 keys do not",
}

BAD_SLOT = 2
BAD_PAYLOAD = 7


class Refused(Exception):
    """The library refused a call, and left everything as it was.

    `number` is the number of the refusal, and `words` says what it means. With number 2 `slot` is the index of the lowest
    slot that is damaged, with all others it is None. `hint` says what a user can do, where there is something to say.
    """

    def __init__(self, number: int, slot: Optional[int] = None) -> None:
        super().__init__(number, slot)
        self.number = number
        self.slot = slot

    @property
    def words(self) -> str:
        return REFUSALS[self.number]

    @property
    def hint(self) -> Optional[str]:
        return _HINTS.get(self.number)

    def __str__(self) -> str:
        where = "" if self.slot is None else f" (slot {self.slot})"
        return f"refused {self.number}: {self.words}{where}"


def refusal(number: int, index: int = 0) -> Refused:
    """What is raised for a number that the library answered, and an index."""
    return Refused(number, index if number == BAD_SLOT else None)
