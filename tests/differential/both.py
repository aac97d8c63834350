"""The shipped library with the independent program beside it: each answer of the one is held to the other's."""
import against  # noqa: F401  (the independent program is importable from here on)
from library import Library
from scope import calls


def first_difference(got: tuple, answer: tuple) -> str:
    """What the library has for what it should have; of octets and lists a few behind the first difference."""
    for one, other in zip(got, answer):
        if one != other and isinstance(one, (bytes, list)):
            at = next((at for at, (x, y) in enumerate(zip(one, other)) if x != y), min(len(one), len(other)))
            return f"from place {at} on {one[at : at + 20]} for {other[at : at + 20]}"
        if one != other:
            return f"{one} for {other}"
    return f"{got} for {answer}"


class Both:
    """The calls of `scope.calls`, made on both. A test that is written for one program runs on this as well."""

    def __init__(self):
        self.library = Library()

    def _held(self, name: str, got: tuple, answer: tuple, call: tuple):
        if got != answer:
            short = [f"{len(word)} octets" if isinstance(word, bytes) and len(word) > 5_000 else word for word in call]
            raise AssertionError(f"{name} of the library answers {first_difference(got, answer)}, called with {short}")

    def _same(self, name: str, *call):
        answer = getattr(calls, name)(*call)
        self._held(name, getattr(self.library, name)(*call), answer, call)
        return answer

    def check(self, *call):
        return self._same("check", *call)

    def convert(self, *call):
        return self._same("convert", *call)

    def process(self, *call):
        return self._same("process", *call)

    def recommend(self, *call):
        return self._same("recommend", *call)

    def target_key(self, *call):
        return self._same("target_key", *call)

    def quick(self, *call):
        answer = calls.quick(*call)
        self._held("recommend_quick", self.library.recommend_quick(*call), answer, call)
        return answer

    # Where the independent program is told how much room there is, the library is lent it, and must leave the rest.

    def entry_numbers(self, *call):
        table, slot, room = call
        number, index, numbers = calls.entry_numbers(*call)
        lent = [0xDEAD_BEEF << 32 | at for at in range(room)]
        after = lent if numbers is None else numbers + lent[len(numbers) :]
        self._held("entry", self.library.entry(table, slot, lent), (number, index, after), call)
        return number, index, numbers

    def _written(self, name: str, *call):
        *words, room = call
        number, field = getattr(calls, name)(*call)
        out = (bytes(range(251)) * (room // 251 + 1))[:room]
        after = field + out[len(field) :]
        self._held(name, getattr(self.library, name)(*words, out), (number, len(field), after), call)
        return number, field

    def write_autocrypt(self, *call):
        return self._written("write_autocrypt", *call)

    def write_gossip(self, *call):
        return self._written("write_gossip", *call)

    def display(self, *call):
        return self._written("display", *call)

    def lint(self, *call):
        number, faults = calls.lint(*call)
        self.linted(*call, number, faults)
        return number, faults

    def linted(self, outer: bytes, payload: bytes, room: int, number: int, faults: list[tuple[int, int, int]]):
        """The library has this answer, writes three numbers for each fault, and leaves the others."""
        lent = [0xDEAD_0000 ^ at for at in range(room)]
        told = [part for fault in faults for part in fault]
        after = (number, len(faults), told + lent[len(told) :])
        self._held("lint", self.library.lint(outer, payload, lent), after, (outer, payload, room))
