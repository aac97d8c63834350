"""The shared library inside the package, declared as include/vienghulac.h declares it.

A block is declared as `c_char_p`: that takes a `bytes` object or an array of `c_char` and nothing else, keeps it alive for
the call, and hands its memory down without a copy. A table that is kept is declared as its address, made once, and its
owner keeps it alive. A call runs without the interpreter's lock.

Most of what ctypes costs is the conversion of the arguments. So a number of 64 bits is declared as `c_void_p`: it is as
wide as a pointer, is passed just as one on x86-64 and on aarch64, and takes half the time of a `c_size_t`, since an `int`
is what `c_void_p` looks for first. What has few values is converted once for each of them.
"""

from __future__ import annotations

import ctypes
from pathlib import Path
from typing import Any, Callable


class Answer(ctypes.Structure):
    """vienghulac_answer"""

    _fields_ = [("number", ctypes.c_uint32), ("index", ctypes.c_uint32)]
    number: int
    index: int


class AdviceAnswer(ctypes.Structure):
    """vienghulac_advice"""

    _fields_ = [("number", ctypes.c_uint32), ("index", ctypes.c_uint32), ("advice", ctypes.c_uint32)]
    number: int
    index: int
    advice: int


class QuickAnswer(ctypes.Structure):
    """vienghulac_quick"""

    _fields_ = [(name, ctypes.c_uint32) for name in ("number", "index", "advice", "looked_up")]
    number: int
    index: int
    advice: int
    looked_up: int


class Part(ctypes.Structure):
    """vienghulac_part"""

    _fields_ = [("start", ctypes.c_uint64), ("length", ctypes.c_uint64)]
    start: int
    length: int


class Written(ctypes.Structure):
    """vienghulac_written"""

    _fields_ = [("number", ctypes.c_uint64), ("length", ctypes.c_uint64)]
    number: int
    length: int


class Linted(ctypes.Structure):
    """vienghulac_linted"""

    _fields_ = [("number", ctypes.c_uint32), ("count", ctypes.c_uint32)]
    number: int
    count: int


class Numbers(ctypes.Structure):
    """vienghulac_numbers"""

    _fields_ = [
        (name, ctypes.c_uint64)
        for name in (
            "used", "bits", "last_seen", "autocrypt_timestamp", "gossip_timestamp",
            "address_start", "address_length", "direct_start", "direct_length", "gossip_start", "gossip_length",
        )
    ]  # fmt: skip
    used: int
    bits: int
    last_seen: int
    autocrypt_timestamp: int
    gossip_timestamp: int
    address_start: int
    address_length: int
    direct_start: int
    direct_length: int
    gossip_start: int
    gossip_length: int


NUMBERS = len(Numbers._fields_)
FIELD, DISPLAY = 3_200, 1_024  # octets: room for every field, and for every address shown
FAULTS = 32_768  # no mail has more
BIT_LAST_SEEN, BIT_DIRECT, BIT_GOSSIP, BIT_MUTUAL = 1, 2, 4, 8

_shared = ctypes.CDLL(str(Path(__file__).with_name("libvienghulac.so")))


class _Few:
    """An argument of a ctypes type that is one of the numbers below a count, all of them converted beforehand.

    ctypes asks what stands in `argtypes` for `from_param` alone; looking into a list is the cheapest there is.
    """

    def __init__(self, kind: type[Any], count: int) -> None:
        self.from_param = [kind.from_param(value) for value in range(count)].__getitem__


_TRUTH = _Few(ctypes.c_bool, 2)
_GOSSIP = _Few(ctypes.c_uint8, 3)
_NUMBER = ctypes.c_void_p
_BLOCK = (ctypes.c_char_p, _NUMBER)
_TABLE = (ctypes.c_void_p, _NUMBER)


def _declared(name: str, answer: type[ctypes.Structure], *arguments: Any) -> Callable[..., Any]:
    function = getattr(_shared, name)
    function.restype = answer
    function.argtypes = arguments
    return function  # type: ignore[no-any-return]


check = _declared("vienghulac_check", Answer, *_BLOCK)
convert = _declared("vienghulac_convert", Answer, *_BLOCK)  # it writes the block, so never lend it `bytes`
process = _declared("vienghulac_process", Answer, *_TABLE, _NUMBER, *_BLOCK, *_BLOCK, _GOSSIP)
recommend = _declared("vienghulac_recommend", AdviceAnswer, *_TABLE, *_BLOCK, _TRUTH, _TRUTH)
recommend_quick = _declared("vienghulac_recommend_quick", QuickAnswer, *_TABLE, *_BLOCK, _TRUTH, _TRUTH)
target_key = _declared("vienghulac_target_key", Part, *_TABLE, *_BLOCK, _TRUTH, _TRUTH, _NUMBER)
entry = _declared("vienghulac_entry", Answer, *_TABLE, _NUMBER, ctypes.POINTER(Numbers), _NUMBER)
write_autocrypt = _declared("vienghulac_write_autocrypt", Written, *_BLOCK, *_BLOCK, _TRUTH, *_BLOCK)
write_gossip = _declared("vienghulac_write_gossip", Written, *_BLOCK, *_BLOCK, *_BLOCK)
display = _declared("vienghulac_display", Written, *_BLOCK, *_BLOCK)
lint = _declared("vienghulac_lint", Linted, *_BLOCK, *_BLOCK, ctypes.POINTER(ctypes.c_uint32), _NUMBER)
