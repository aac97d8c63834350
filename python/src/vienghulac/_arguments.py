"""What a caller may pass, and what is handed down for it.

ctypes would take more than the library's functions mean: it cuts a number to its width, and takes any object for a
truth value. So each argument is looked at first: here, where a call does not know it by its exact type.
"""

from __future__ import annotations

import operator
from typing import SupportsIndex, Union

Octets = Union[bytes, bytearray, memoryview]
"""Octets of any kind. Mutable ones are copied before a call, so that a change during it changes nothing."""

_LARGEST = 2**64 - 1


def octets(value: Octets, name: str) -> bytes:
    """The octets to lend for one call: `bytes` as they are, anything mutable as a copy.

    A subclass may say another length than its memory has, so its octets are copied, by the methods of the class itself.
    """
    if type(value) is bytes:
        return value
    if isinstance(value, (bytes, memoryview)):
        return memoryview(value).tobytes()
    if isinstance(value, bytearray):
        return bytes(bytearray.copy(value))
    raise TypeError(f"{name} must be bytes, bytearray or memoryview, not {type(value).__name__}")


def number(value: SupportsIndex, name: str) -> int:
    """A number from 0 as the library takes it; one beyond its width is as far past every limit as the largest."""
    try:
        whole = operator.index(value)
    except TypeError:
        raise TypeError(f"{name} must be an int, not {type(value).__name__}") from None
    if whole < 0:
        raise ValueError(f"{name} must not be below 0")
    return min(whole, _LARGEST)


def truth(value: bool, name: str) -> bool:
    """A truth value, and nothing that merely counts as one."""
    if isinstance(value, bool):
        return value
    raise TypeError(f"{name} must be a bool, not {type(value).__name__}")
