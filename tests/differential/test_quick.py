"""The shipped library's `recommend_quick` against the independent program, and beside its own `recommend` and target keys."""
import itertools
import unittest
from collections import Counter

from against import Cases
from both import Both
from scope import address, recommending, table as tables
from probe import SEED

DISABLE, SLOT = recommending.DISABLE, tables.SLOT

# People of each advice by A2. Three have disable: one with a bare entry, one with last seen alone, and one with no entry.
KEYED = [b"mutual@x", b"fresh@x", b"stale@x", b"heard@x"]
WITHOUT = [b"bare@x", b"seen@x", b"nobody@x"]
TABLE = tables.table_of([
    tables.Entry(b"mutual@x", 7, 7, b"k", True),
    tables.Entry(b"fresh@x", 7, 7, b"k"),
    tables.Entry(b"bare@x"),
    None,
    tables.Entry(b"stale@x", 8 + recommending.GAP_LIMIT, 7, b"k"),
    tables.Entry(b"seen@x", 7),
    tables.Entry(b"heard@x", gossip_timestamp=7, gossip_key=b"g"),
])


class Quick(unittest.TestCase):
    """A12 to A14, C21, and refusals 1, 2 and 10."""

    def setUp(self):
        self.both = Both()
        self.cases = Cases(SEED)
        self.random = self.cases.random

    def asked(self, *call) -> tuple[int, int, int]:
        """The number, the advice and the count."""
        number, index, advice, looked_up = self.both.quick(*call)
        self.assertEqual(self.both.library.recommend(*call), (number, index, advice))
        return number, advice, looked_up

    def counted(self, advice: int, looked_up: int, *call):
        """C21, by the library's target keys: whoever was looked up has one, but for the last one of a list with disable; else
        nobody is left behind them."""
        keys = [self.both.library.target_key(*call, place) != (0, 0) for place in range(looked_up + 1)]
        self.assertEqual(keys[:looked_up], [True] * (looked_up - 1) + [advice != DISABLE], call[1:])
        self.assertFalse(keys[looked_up] and advice != DISABLE, call[1:])

    def test_calls_A12_A13_A14(self):
        """20,000 generated calls: every refusal and advice, the first disable in front, inside, at the end and nowhere."""
        answers, places, lengths = Counter(), Counter(), Counter()
        for _ in range(20_000):
            call = self.cases.quick()
            number, advice, looked_up = self.asked(*call)
            answers[number, advice] += 1
            if number:
                continue
            self.counted(advice, looked_up, *call)
            length = len(address.addresses(call[1]))
            lengths[length] += 1
            places["none" if advice != DISABLE else {1: "first", length: "last"}.get(looked_up, "middle")] += 1
        self.assertEqual(set(answers), {(0, 1), (0, 2), (0, 3), (0, 4), (1, 0), (2, 0), (10, 0)})
        self.assertGreater(min(answers.values()), 300, answers)
        self.assertEqual(set(places), {"first", "middle", "last", "none"})
        self.assertGreater(min(places.values()), 500, places)
        self.assertGreater(min(lengths[length] for length in (1, 2, 3, 4, 6, 99, 100)), 100, lengths)

    def test_each_place_A13(self):
        """The first disable at each place, behind it keys alone or none, and nowhere."""
        for length in (1, 2, 3, 50, 99, 100):
            for place in range(length + 1):
                front = self.random.choices(KEYED, k=place)
                for behind in (KEYED, WITHOUT):
                    names = front + [self.random.choice(WITHOUT)] + self.random.choices(behind, k=length)
                    number, advice, looked_up = self.asked(TABLE, b",".join(names[:length]), True, False)
                    self.assertEqual((number, looked_up), (0, min(place + 1, length)))
                    self.assertEqual(advice == DISABLE, place < length)

    def test_every_list_of_three_A12(self):
        """Each three of those with a key and those without, with either preference, as a reply or not."""
        for names in itertools.product(KEYED + WITHOUT, repeat=3):
            first = next((place for place, name in enumerate(names, 1) if name in WITHOUT), 3)
            for mutual, reply in itertools.product((False, True), repeat=2):
                self.assertEqual(self.asked(TABLE, b", ".join(names), mutual, reply)[2], first)

    def test_places_A10_A13(self):
        """Groups, of which empty ones take no place; names and comments; equal recipients in other spellings."""
        rows = [
            (b"g:;, g:;, h: fresh@x, FRESH@X, nobody@x;, g:;", 3),
            (b"g: bare@x, fresh@x;, fresh@x", 1),
            (b"g: fresh@x;, " * 50 + b"h:;", 50),
            (b"g:;, " * 300 + b"seen@x", 1),
            (b'"bare@x, nobody@x" <fresh@x>, (bare@x, (seen@x)) B. <HEARD@X> (\\)), Seen@X, nobody@x', 3),
        ]
        for recipients, count in rows:
            self.assertEqual(self.asked(TABLE, recipients, False, False)[2], count, recipients)

    def test_refusals_A14(self):
        """Faults and a 101st address behind the first disable, or without any; and tables that are none."""
        broken = TABLE[: SLOT + 5] + b"\1" + TABLE[SLOT + 6 :]
        good = [b"", b" ", b" (c)", b", g:;"]
        bad = [b",", b"\r\n", b" (", b", g: fresh@x", b" Bob", b"\0", b", \xff"]
        for length, place in itertools.product((1, 2, 99, 100, 101), (0, 1, 50, 99, 100, None)):
            names = [b"fresh@x"] * length
            if place is not None:
                names[min(place, length - 1)] = b"bare@x"
            recipients = b",".join(names)
            for tail in good + bad:
                number, advice, looked_up = self.asked(TABLE, recipients + tail, False, True)
                self.assertEqual(number, 0 if length <= 100 and tail in good else 10)
                self.assertEqual((advice > 0, looked_up > 0), (number == 0, number == 0))
            for octets, refusal in ((broken, 2), (TABLE[:-1], 1), (b"", 1), (bytes(257 * SLOT), 1)):
                self.assertEqual(self.asked(octets, recipients, False, True), (refusal, 0, 0))

    def test_behind_the_first_disable_C21(self):
        """Tables that differ in what they hold of those behind it: another entry, none, or other slots."""
        for _ in range(1_000):
            names = [b"p%d@x" % place for place in range(self.random.randint(2, 12))]
            first = self.random.randrange(len(names) - 1)
            held = [tables.Entry(name, 7, 7, b"k") for name in names[:first]]
            call = b",".join(names), self.cases.chance(0.5), self.cases.chance(0.5)
            for _ in range(3):
                behind = [self.cases.entry(name) if self.cases.chance(0.7) else None for name in names[first + 1 :]]
                slots = self.random.sample(held + behind, len(names) - 1)
                self.assertEqual(self.asked(tables.table_of(slots), *call), (0, DISABLE, first + 1))

    def test_the_longest_table_A13(self):
        """256 slots, with the recipients in the last ones: one of them is missing, or none."""
        entries = [tables.Entry(b"q%d@q" % place, 1, 1, b"k") for place in range(tables.SLOTS_LIMIT)]
        names = [entry.address for entry in entries[-100:]]
        for place in (0, 49, 99, 100):
            held = [None if entry.address == (names + [b""])[place] else entry for entry in entries]
            _, advice, looked_up = self.asked(tables.table_of(held), b",".join(names), False, False)
            self.assertEqual((advice == DISABLE, looked_up), (place < 100, min(place + 1, 100)))


if __name__ == "__main__":
    unittest.main()
