"""The library that is shipped, called through ctypes as include/vienghulac.h declares it."""
import ctypes
from pathlib import Path

from probe import READ, ROOT, WRITE, Bound, Lent, LentNumbers


class Answer(ctypes.Structure):
    _fields_ = [("number", ctypes.c_uint32), ("index", ctypes.c_uint32)]


class Advice(ctypes.Structure):
    _fields_ = [("number", ctypes.c_uint32), ("index", ctypes.c_uint32), ("advice", ctypes.c_uint32)]


class Quick(ctypes.Structure):
    _fields_ = [*Advice._fields_, ("looked_up", ctypes.c_uint32)]


class Part(ctypes.Structure):
    _fields_ = [("start", ctypes.c_uint64), ("length", ctypes.c_uint64)]


class Written(ctypes.Structure):
    _fields_ = [("number", ctypes.c_uint64), ("length", ctypes.c_uint64)]


class Linted(ctypes.Structure):
    _fields_ = [("number", ctypes.c_uint32), ("count", ctypes.c_uint32)]


class Library(Bound):
    """The functions of the header, or those of another library that has them under another prefix."""

    def __init__(self, file: Path = ROOT / "build" / "libvienghulac.so", prefix: str = "vienghulac"):
        super().__init__(file)
        self._prefix = prefix

    def _call(self, name: str, *rest):
        return super()._call(f"{self._prefix}_{name}", *rest)

    def check(self, table: bytes) -> tuple[int, int]:
        r = self._call("check", Answer, READ, table, len(table))
        return r.number, r.index

    def convert(self, table: bytes) -> tuple[int, int, bytes]:
        """The number, the index, and what the table then holds."""
        lent = Lent(table)
        r = self._call("convert", Answer, WRITE, *lent.words())
        return r.number, r.index, lent.now()

    def process(self, table: bytes, receipt: int, outer: bytes, payload: bytes, gossip: int) -> tuple[int, int, bytes]:
        """The number, the index, and what the table then holds."""
        lent = Lent(table)
        kinds = WRITE + [ctypes.c_uint64] + READ + READ + [ctypes.c_uint8]
        words = [*lent.words(), receipt, outer, len(outer), payload, len(payload), gossip]
        r = self._call("process", Answer, kinds, *words)
        return r.number, r.index, lent.now()

    def entry(self, table: bytes, slot: int, numbers: list[int]) -> tuple[int, int, list[int]]:
        """The number, the index, and what the lent numbers then are."""
        lent = LentNumbers(numbers)
        kinds = READ + [ctypes.c_uint64] + WRITE
        r = self._call("entry", Answer, kinds, table, len(table), slot, *lent.words())
        return r.number, r.index, lent.now()

    def _write(self, name: str, kinds: list, words: list, out: bytes) -> tuple[int, int, bytes]:
        lent = Lent(out)
        r = self._call(name, Written, kinds + WRITE, *words, *lent.words())
        return r.number, r.length, lent.now()

    def write_autocrypt(self, address: bytes, key: bytes, mutual: bool, out: bytes) -> tuple[int, int, bytes]:
        """The number, the length, and what the output then holds."""
        kinds = READ + READ + [ctypes.c_bool]
        words = [address, len(address), key, len(key), mutual]
        return self._write("write_autocrypt", kinds, words, out)

    def write_gossip(self, address: bytes, key: bytes, out: bytes) -> tuple[int, int, bytes]:
        """As above."""
        words = [address, len(address), key, len(key)]
        return self._write("write_gossip", READ + READ, words, out)

    def display(self, address: bytes, out: bytes) -> tuple[int, int, bytes]:
        """As above."""
        return self._write("display", READ, [address, len(address)], out)

    def lint(self, outer: bytes, payload: bytes, faults: list[int]) -> tuple[int, int, list[int]]:
        """The number, how many faults there are, and what the lent numbers then are."""
        lent = LentNumbers(faults, "I")
        words = [outer, len(outer), payload, len(payload), *lent.words()]
        r = self._call("lint", Linted, READ + READ + WRITE, *words)
        return r.number, r.count, lent.now()

    def _asked(self, name: str, answer: type, table: bytes, recipients: bytes, mutual: bool, reply: bool):
        kinds = READ + READ + [ctypes.c_bool, ctypes.c_bool]
        return self._call(name, answer, kinds, table, len(table), recipients, len(recipients), mutual, reply)

    def recommend(self, table: bytes, recipients: bytes, mutual: bool, reply: bool) -> tuple[int, int, int]:
        """The number, the index, and the advice."""
        r = self._asked("recommend", Advice, table, recipients, mutual, reply)
        return r.number, r.index, r.advice

    def recommend_quick(self, table: bytes, recipients: bytes, mutual: bool, reply: bool) -> tuple[int, int, int, int]:
        """The same, and how many were looked up."""
        r = self._asked("recommend_quick", Quick, table, recipients, mutual, reply)
        return r.number, r.index, r.advice, r.looked_up

    def target_key(self, table: bytes, recipients: bytes, mutual: bool, reply: bool, place: int) -> tuple[int, int]:
        """Start and length of the part of the table."""
        kinds = READ + READ + [ctypes.c_bool, ctypes.c_bool, ctypes.c_uint64]
        words = [table, len(table), recipients, len(recipients), mutual, reply, place]
        r = self._call("target_key", Part, kinds, *words)
        return r.start, r.length
