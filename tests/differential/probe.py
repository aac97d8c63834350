"""The functions of crate `probe`, called through ctypes.

A slice is passed as a pointer and a length; a buffer that is lent for writing comes back as the octets it then holds.
Guard octets stand before and behind each lent buffer, and are looked at after the call. No export answers more than two
numbers (tests/texts holds them to it): what is more is written to lent numbers.
"""
import ctypes
import os
import struct
from pathlib import Path

ROOT = Path(__file__).resolve().parents[2]
LIBRARY = ROOT / "build" / "libvienghulac_probe.so"
SEED = int(os.environ.get("VIENGHULAC_SEED", "1"))
GUARD = bytes(range(200, 232))
TOO_FEW = 9
UNWRITTEN = 0xFEEDFACE_DEADBEEF


class Answer(ctypes.Structure):
    _fields_ = [("kind", ctypes.c_uint64), ("value", ctypes.c_uint64)]


class Lent:
    """A buffer that is lent for one call."""

    def __init__(self, octets: bytes):
        self.length = len(octets)
        self.memory = ctypes.create_string_buffer(GUARD + octets + GUARD, len(octets) + 2 * len(GUARD))

    def words(self):
        return ctypes.byref(self.memory, len(GUARD)), self.length

    def now(self) -> bytes:
        raw = self.memory.raw
        if raw[: len(GUARD)] != GUARD or raw[len(GUARD) + self.length :] != GUARD:
            raise AssertionError("written outside the lent buffer")
        return raw[len(GUARD) : len(GUARD) + self.length]


class LentNumbers:
    """Numbers that are lent for one call: of 64 bits, or with the letter `I` of `struct` of 32."""

    def __init__(self, numbers: list[int], letter: str = "Q"):
        self.count = len(numbers)
        self.form = f"{self.count}{letter}"
        self.lent = Lent(struct.pack(self.form, *numbers))

    def words(self):
        return self.lent.words()[0], self.count

    def now(self) -> list[int]:
        return list(struct.unpack(self.form, self.lent.now()))


_size = ctypes.c_size_t
_read = READ = [ctypes.c_char_p, _size]
_write = WRITE = [ctypes.c_void_p, _size]


class Bound:
    """A library's functions, called by name."""

    def __init__(self, library: Path):
        self._library = ctypes.CDLL(str(library))

    def _call(self, name, result, kinds, *words):
        function = getattr(self._library, name)
        function.restype = result
        function.argtypes = kinds
        return function(*words)


class Probe(Bound):
    def __init__(self):
        super().__init__(LIBRARY)

    def told(self, name: str, count: int, tells: set[int], kinds: list, *words) -> tuple[int, list[int]]:
        """What an export answers that is lent `count` numbers: its kind and, with a kind of `tells` alone, the numbers."""
        lent = LentNumbers([UNWRITTEN] * count)
        kind = self._call(name, ctypes.c_uint64, kinds + _write, *words, *lent.words())
        numbers = lent.now()
        if kind in tells:
            return kind, numbers
        if numbers != [UNWRITTEN] * count:
            raise AssertionError(f"{name}: numbers written with the kind {kind}")
        return kind, []

    # octets

    def same(self, a: bytes, b: bytes) -> bool:
        return self._call("probe_same", ctypes.c_bool, _read + _read, a, len(a), b, len(b))

    def same_name(self, a: bytes, b: bytes) -> bool:
        return self._call("probe_same_name", ctypes.c_bool, _read + _read, a, len(a), b, len(b))

    def goes_on(self, s: bytes, at: int, text: bytes) -> bool:
        return self._call("probe_goes_on", ctypes.c_bool, _read + [_size] + _read, s, len(s), at, text, len(text))

    def is_zero(self, s: bytes) -> bool:
        return self._call("probe_is_zero", ctypes.c_bool, _read, s, len(s))

    def find_octet(self, s: bytes, start: int, x: int) -> int:
        return self._call("probe_octet", _size, _read + [_size, ctypes.c_uint8], s, len(s), start, x)

    def fill(self, out: bytes, x: int) -> bytes:
        lent = Lent(out)
        self._call("probe_fill", None, _write + [ctypes.c_uint8], *lent.words(), x)
        return lent.now()

    def put(self, out: bytes, at: int, src: bytes, lower: bool = False) -> tuple[bool, bytes]:
        lent = Lent(out)
        name = "probe_put_lower" if lower else "probe_put"
        done = self._call(name, ctypes.c_bool, _write + [_size] + _read, *lent.words(), at, src, len(src))
        return done, lent.now()

    def number_at(self, s: bytes, at: int, width: int) -> int | None:
        r = self._call("probe_number_at", Answer, _read + [_size, _size], s, len(s), at, width)
        return r.value if r.kind == 0 else None

    def put_number(self, out: bytes, at: int, width: int, n: int) -> tuple[bool, bytes]:
        lent = Lent(out)
        kinds = _write + [_size, _size, ctypes.c_uint64]
        done = self._call("probe_put_number", ctypes.c_bool, kinds, *lent.words(), at, width, n)
        return done, lent.now()

    # keydata

    def decode(self, text: bytes, out: bytes) -> tuple[int, bytes] | None:
        """The number of octets, and the buffer; None for no Base64 or too little room: then the buffer means nothing."""
        lent = Lent(out)
        r = self._call("probe_decode", Answer, _read + _write, text, len(text), *lent.words())
        now = lent.now()
        return (r.value, now) if r.kind == 0 else None

    def lines(self, key: bytes, out: bytes, at: int) -> tuple[int, int, bytes]:
        """kind 0: the place behind the lines; 2: too little room"""
        lent = Lent(out)
        r = self._call("probe_lines", Answer, _read + _write + [_size], key, len(key), *lent.words(), at)
        return r.kind, r.value, lent.now()

    # tokens

    def _place(self, name: str, s: bytes, at: int) -> int | None:
        r = self._call(name, Answer, _read + [_size], s, len(s), at)
        return r.value if r.kind == 0 else None

    def skip(self, s: bytes, at: int) -> int | None:
        return self._place("probe_skip", s, at)

    def quoted(self, s: bytes, at: int) -> int | None:
        """`at` is behind the opening quote."""
        return self._place("probe_quoted", s, at)

    def run_end(self, s: bytes, at: int, kind: int) -> int:
        """kind 0: digits; 1: letters; 2: what atoms are made of"""
        return self._call("probe_run_end", _size, _read + [_size, ctypes.c_uint8], s, len(s), at, kind)

    # date

    def date(self, value: bytes) -> int | None:
        r = self._call("probe_date", Answer, _read, value, len(value))
        return r.value if r.kind == 0 else None

    def effective_date(self, date: int | None, receipt: int) -> int:
        kinds = [ctypes.c_bool, ctypes.c_uint64, ctypes.c_uint64]
        return self._call("probe_effective_date", ctypes.c_uint64, kinds, date is not None, date or 0, receipt)

    # header

    def fields(self, block: bytes) -> list[tuple[bytes, bytes]] | None:
        """The block's fields with their unfolded values, field by field; None: unreadable. The length limit is `readable`'s."""
        found, at = [], 0
        while True:
            kind, places = self.told("probe_field_at", 3, {2}, _read + [_size], block, len(block), at)
            if kind != 2:
                return found if kind == 0 else None
            found.append(self._field(block, at, *places))
            at = places[-1]

    def _field(self, block: bytes, name: int, name_end: int, value: int, end: int) -> tuple[bytes, bytes]:
        """The field at these places, with its unfolded value."""
        if not name < name_end < value <= end <= len(block):
            raise AssertionError(f"places out of order: {name} {name_end} {value} {end}")
        return block[name:name_end], self.unfold(block[value:end], bytes(end - value))[1]

    def field_number(self, block: bytes, k: int) -> tuple[bytes, bytes] | int:
        """The field of that number, from 0, with its unfolded value; 0: the block is over before it; 1: it is unreadable before it."""
        kind, places = self.told("probe_field_number", 4, {2}, _read + [_size], block, len(block), k)
        return self._field(block, *places) if kind == 2 else kind

    def steps(self, block: bytes) -> list[tuple[bytes, bytes]] | None:
        """As `fields`, by a reader that is asked for one field after the other (B14); where there is none, it stays."""
        found, at = [], 0
        while True:
            kind, (place, *places) = self.told("probe_take", 5, {0, 1, 2}, _read + [_size], block, len(block), at)
            if kind != 2:
                if (place, places) != (at, [UNWRITTEN] * 4):
                    raise AssertionError(f"the reader at {at} handed out no field and is at {place}")
                return found if kind == 0 else None
            if (at, place) != (places[0], places[-1]):
                raise AssertionError(f"the reader at {at} handed out {places} and is at {place}")
            found.append(self._field(block, *places))
            at = place

    def readable(self, block: bytes) -> bool:
        return self._call("probe_readable", ctypes.c_bool, _read, block, len(block))

    def unfold(self, raw: bytes, out: bytes) -> tuple[int, bytes]:
        """The kind, and the octets; the rest of the buffer must be as it was lent."""
        lent = Lent(out)
        r = self._call("probe_unfold", Answer, _read + _write, raw, len(raw), *lent.words())
        after = lent.now()
        if after[r.value :] != out[r.value :]:
            raise AssertionError("the buffer past the value changed")
        return r.kind, after[: r.value]

    def is_report(self, value: bytes) -> bool:
        return self._call("probe_is_report", ctypes.c_bool, _read, value, len(value))

    # address

    def is_plain(self, s: bytes) -> bool:
        return self._call("probe_is_plain", ctypes.c_bool, _read, s, len(s))

    def is_canonical(self, s: bytes) -> bool:
        return self._call("probe_is_canonical", ctypes.c_bool, _read, s, len(s))

    def was_canonical(self, s: bytes) -> bool:
        return self._call("probe_was_canonical", ctypes.c_bool, _read, s, len(s))

    def has_form(self, s: bytes, form: bytes) -> bool:
        return self._call("probe_has_form", ctypes.c_bool, _read + _read, s, len(s), form, len(form))

    def canonical(self, s: bytes, out: bytes) -> tuple[int, int, bytes]:
        """kind 0: how long the form is; 2: the address is not plain, or has too little room"""
        lent = Lent(out)
        r = self._call("probe_canonical", Answer, _read + _write, s, len(s), *lent.words())
        return r.kind, r.value, lent.now()

    # list

    def addresses(self, s: bytes) -> list[bytes] | None:
        """The list's addresses, handed out one after the other; None: unreadable."""
        found, at, stage, inside = [], 0, 0, False
        kinds = _read + [_size, ctypes.c_uint64, ctypes.c_bool]
        while True:
            kind, places = self.told("probe_next_address", 5, {0}, kinds, s, len(s), at, stage, inside)
            if kind != 0:
                return found if kind == 2 else None
            before, (start, to, at, stage, inside) = at, places
            if not before <= start < to <= at <= len(s):
                raise AssertionError(f"places out of order: {before} {start} {to} {at}")
            found.append(s[start:to])

    def count(self, s: bytes) -> int | None:
        r = self._call("probe_count", Answer, _read, s, len(s))
        return r.value if r.kind == 0 else None

    def only(self, s: bytes) -> bytes | None:
        kind, places = self.told("probe_only", 2, {0}, _read, s, len(s))
        return s[slice(*places)] if kind == 0 else None

    # table

    def _slot(self, name: str, kinds: list, *words) -> int | None:
        r = self._call(name, Answer, kinds, *words)
        assert r.kind in (0, 1)
        return r.value if r.kind == 0 else None

    def find(self, table: bytes, address: bytes) -> int | None:
        return self._slot("probe_find", _read + _read, table, len(table), address, len(address))

    def lowest_free(self, table: bytes) -> int | None:
        return self._slot("probe_lowest_free", _read, table, len(table))

    def count_free(self, table: bytes) -> int:
        return self._call("probe_count_free", _size, _read, table, len(table))

    # keyfield

    def read_field(self, value: bytes, key: bytes) -> tuple[int, bytes, bool, int, bytes]:
        """The kind (0 valid, 1 spoiled, or a key longer than the buffer), the address as it stands, mutual, the key's length, the buffer."""
        lent = Lent(key)
        kind, told = self.told("probe_read_field", 4, {0}, _read + _write, value, len(value), *lent.words())
        start, to, length, mutual = told or (0, 0, 0, 0)
        return kind, value[start:to], bool(mutual), length, lent.now()

    # printout

    def printout(self, given: bytes, out: bytes) -> tuple[int, bytes]:
        """How long the listing's text is, and the buffer, which has the length that the function takes for granted."""
        lent = Lent(out)
        pointer, _ = lent.words()
        return self._call("probe_printout", _size, _read + [ctypes.c_void_p], given, len(given), pointer), lent.now()
