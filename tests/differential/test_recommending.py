"""The shipped library's advice and target keys against the independent program: generated calls, every combination of what an
entry holds with what the caller says, and both ends of each limit."""
import itertools
import unittest

from against import Cases
from both import Both
from scope import recommending, table as tables
from probe import SEED

GAP = recommending.GAP_LIMIT


def entries() -> list[tables.Entry]:
    """Every combination of direct key, gap, preference and gossip key, each with an address of its own."""
    found = []
    for at, (gap, mutual, gossip) in enumerate(itertools.product((None, 0, GAP, GAP + 1), (False, True), (False, True))):
        entry = tables.Entry(b"p%d@x.example" % at)
        if gap is not None:
            entry.last_seen, entry.autocrypt_timestamp = 7 + gap, 7
            entry.direct_key, entry.mutual = b"direct%d" % at, mutual
        elif mutual:
            entry.last_seen = 7
        if gossip:
            entry.gossip_timestamp, entry.gossip_key = 9, b"gossip%d" % at
        found.append(entry)
    return found


class Recommending(unittest.TestCase):
    """Page A, and refusals 1, 2 and 10."""

    def setUp(self):
        self.both = Both()
        self.cases = Cases(SEED)

    def advised(self, *call) -> tuple[int, int]:
        """The number and the advice."""
        number, _, advice = self.both.recommend(*call)
        return number, advice

    def target(self, table: bytes, *rest) -> bytes:
        """The key."""
        start, length = self.both.target_key(table, *rest)
        return table[start : start + length]

    def test_recommending(self):
        answers = set()
        keys = set()
        for _ in range(8_000):
            *call, place = self.cases.target()
            answers.add(self.advised(*call))
            keys.add(len(self.target(*call, place)) > 0)
        self.assertEqual(answers, {(0, 1), (0, 2), (0, 3), (0, 4), (1, 0), (2, 0), (10, 0)})
        self.assertEqual(keys, {False, True})

    def test_every_combination_A2_A5(self):
        """Lists of one and of two: each entry, and each pair of entries, with either preference, as a reply or not."""
        held = entries()
        table = tables.table_of(held)
        known = {entry.address: entry.direct_key or entry.gossip_key or b"" for entry in held}
        addresses = list(known) + [b"stranger@x.example"]
        lists = [(a,) for a in addresses] + list(itertools.product(addresses, repeat=2))
        for places in lists:
            recipients = b", ".join(places)
            for mutual, reply in itertools.product((False, True), repeat=2):
                self.advised(table, recipients, mutual, reply)
            for place, address in enumerate(places):
                self.assertEqual(self.target(table, recipients, False, False, place), known.get(address, b""))
            self.assertEqual(self.target(table, recipients, True, True, len(places)), b"")

    def test_places_A10(self):
        """Groups, comments, names, capitals and equal recipients: each place has its own recipient's key."""
        held = [None] + entries()
        table = tables.table_of(held)
        recipients = b'P5@X.example, "a, b" <p4@x.EXAMPLE>, g: (p9@x.example) p6@x.example, B. C <p1@x.example>;, h:;, p4@x.example (\\()'
        places = [5, 4, 6, 1, 4]
        for place, at in enumerate(places):
            entry = held[1 + at]
            self.assertEqual(self.target(table, recipients, False, False, place), entry.direct_key or entry.gossip_key)
        for place in (len(places), len(places) + 1, 255, 256, 1 << 32, (1 << 63) + 1, (1 << 64) - 1):
            self.assertEqual(self.target(table, recipients, False, False, place), b"")
        self.assertEqual(self.advised(table, recipients, True, True), (0, recommending.ENCRYPT))

    def test_refusals_R10_A7(self):
        """Lists of 0, 1, 2, 99, 100, 101 and 200 places, readable or not, with a sound, a broken and a cut table; no key is handed
        back where the advice is refused."""
        held = entries()[4:6]
        table = tables.table_of(held)
        broken = table[: tables.SLOT + 5] + b"\1" + table[tables.SLOT + 6 :]
        for octets in (table, broken, table[:-1], b"", bytes(257 * tables.SLOT)):
            for many in (0, 1, 2, 99, 100, 101, 200):
                for recipients in (b",".join([b"p4@x.example"] * many), b"g:" + b",".join([b"p5@x.example"] * many) + b";"):
                    for written in (recipients, recipients + b",", recipients + b"\r\n", b" (c) " + recipients + b"\t"):
                        number, _ = self.advised(octets, written, True, False)
                        for place in (0, 99):
                            key = self.target(octets, written, True, False, place)
                            self.assertFalse(number and key)


if __name__ == "__main__":
    unittest.main()
