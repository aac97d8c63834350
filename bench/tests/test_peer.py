"""The C peer against the independent program: the bench compares times with a program that gives the same answers.

VIENGHULAC_PEER_CASES sets how many cases there are of each call (the gate takes few), VIENGHULAC_SEED where they start.
"""
import itertools
import os
import subprocess
import sys
import unittest
from pathlib import Path

ROOT = Path(__file__).resolve().parents[2]
sys.path += [str(ROOT / "tests" / "independent"), str(ROOT / "tests" / "differential")]

import domains  # noqa: E402
import rfc3492  # noqa: E402
from cases import Cases  # noqa: E402
from library import Library  # noqa: E402
from scope import conversion, displaying, processing, punycode, recommending, table as tables, utf8, writing  # noqa: E402
from probe import SEED  # noqa: E402

CASES = int(os.environ.get("VIENGHULAC_PEER_CASES", "500"))
LIBRARY = ROOT / "build" / "bench" / "libpeer.so"


def build() -> Library:
    subprocess.run([ROOT / "bench" / "build", "peer"], check=True)
    return Library(LIBRARY, "peer")


class Program:
    """The peer with the calls of `scope.calls`: where they are told how much room there is, it is lent so much."""

    def __init__(self, peer: Library):
        self.check, self.convert, self.process = peer.check, peer.convert, peer.process
        self.recommend, self.quick, self.target_key = peer.recommend, peer.recommend_quick, peer.target_key
        self.peer = peer

    def written(self, call, *words) -> tuple[int, bytes]:
        *words, room = words
        number, length, out = call(*words, bytes(room))
        return number, out[:length]

    def write_autocrypt(self, *words):
        return self.written(self.peer.write_autocrypt, *words)

    def write_gossip(self, *words):
        return self.written(self.peer.write_gossip, *words)

    def display(self, *words):
        return self.written(self.peer.display, *words)


class Domains(domains.Domains, unittest.TestCase):
    """L6 to L8, L22, L23, W11, W12: domains in other scripts, example by example."""

    @classmethod
    def setUpClass(cls):
        cls.program = Program(build())


class PeerTest(unittest.TestCase):
    @classmethod
    def setUpClass(cls):
        cls.peer = build()

    def setUp(self):
        self.cases = Cases(SEED)

    def same(self, make, expected, got) -> set:
        """The peer gives what the independent program gives, on cases that `make` makes; the numbers that were seen."""
        seen = set()
        for _ in range(CASES):
            case = make()
            wanted = expected(*case)
            seen.add(wanted[0])
            self.assertEqual(got(*case), wanted, case)
        return seen

    def test_process(self):
        seen = self.same(self.cases.processing, processing.process, self.peer.process)
        self.assertEqual(seen, set(range(9)))

    def test_recommend(self):
        seen = self.same(self.cases.recommending, recommending.recommend, self.peer.recommend)
        self.assertEqual(seen, {0, 1, 2, 10})

    def test_quick_A12_A13(self):
        seen = self.same(self.cases.quick, recommending.quick, self.peer.recommend_quick)
        self.assertEqual(seen, {0, 1, 2, 10})

    def test_target_key(self):
        self.same(self.cases.target, recommending.target_key, self.peer.target_key)

    def test_each_code_point_L21(self):
        """What is written for each code point, alone and beside a fault; and which is sound in a slot."""
        for point in [*range(0x80, 0x800), 0xFFF, 0x1E9E, 0xD7FF, 0xE000, 0xFFFF, 0x10000, 0x10FFFF]:
            for address in (chr(point).encode() + b"@b", b"A" + chr(point).encode() + b".a@B", chr(point).encode() + b"\xff@b"):
                number, field = writing.write_gossip(address, b"k", 1 << 10)
                self.assertEqual(self.peer.write_gossip(address, b"k", bytes(len(field))), (number, len(field), field), address)
                slot = tables.slot_of(tables.Entry(address))
                self.assertEqual(self.peer.check(slot), tables.check(slot), address)

    def test_octets_that_may_be_utf8_L20(self):
        for octets in itertools.product(range(128, 256), [0x41, 0x7E, 0x80, 0x8F, 0x90, 0x9F, 0xA0, 0xBF, 0xC3], [0x80, 0x41, 0xBF]):
            for address in (bytes(octets[:1]) + "É@b".encode(), bytes(octets) + "É@b".encode(), bytes(octets) + b"\x80" + "É@b".encode()):
                number, field = writing.write_gossip(address, b"k", 1 << 10)
                self.assertEqual(self.peer.write_gossip(address, b"k", bytes(len(field))), (number, len(field), field), address)

    def test_check(self):
        self.same(lambda: (self.cases.table(),), tables.check, self.peer.check)

    def test_convert(self):
        seen = self.same(lambda: (self.cases.conversion(),), conversion.convert, self.peer.convert)
        self.assertEqual(seen, {0, 1, 2})

    def test_write_autocrypt(self):
        for _ in range(CASES):
            address, key, mutual, room = self.cases.writing()
            number, field = writing.write_autocrypt(address, key, mutual, room)
            out = b"\xaa" * room
            expected = number, len(field), field + out[len(field):]
            self.assertEqual(self.peer.write_autocrypt(address, key, mutual, out), expected, (address, key))

    def test_write_gossip(self):
        for _ in range(CASES):
            address, key, room = self.cases.writing_gossip()
            number, field = writing.write_gossip(address, key, room)
            out = b"\xaa" * room
            self.assertEqual(self.peer.write_gossip(address, key, out), (number, len(field), field + out[len(field):]), (address, key))

    def test_display(self):
        seen = set()
        for _ in range(4 * CASES):
            address, room = self.cases.displaying()
            number, text = displaying.display(address, room)
            seen.add(number)
            out = b"\xaa" * room
            self.assertEqual(self.peer.display(address, out), (number, len(text), text + out[len(text):]), address)
        self.assertEqual(seen, {0, 9, 12})

    def shown(self, address: bytes) -> None:
        """What is written for the address, and what is shown of it."""
        number, field = writing.write_gossip(address, b"k", 1 << 10)
        self.assertEqual(self.peer.write_gossip(address, b"k", bytes(len(field))), (number, len(field), field), address)
        number, text = displaying.display(address, 1024)
        self.assertEqual(self.peer.display(address, bytes(1024)), (number, len(text), text.ljust(1024, b"\0")), address)

    def test_labels_L22_L23(self):
        """Code points of each number that a label may have, labels of every sort, and the samples of RFC 3492."""
        for many in range(1, 61):
            for low, high in [(0x80, 0x100), (0x80, 0x500), (0x80, 0xD800), (0xE000, 0x110000), (0x10F000, 0x110000)]:
                points = [self.cases.one(b"abz09-AZ") if self.cases.chance(0.3) else self.cases.random.randrange(low, high)
                          for _ in range(many)]
                self.shown(b"a@" + utf8.encoded(points))
        for _ in range(CASES):
            for label in (self.cases.script_label(), self.cases.coded_label(), self.cases.limit_label(), self.cases.bad_label(),
                          b"xn--" + self.cases.some(b"abz019-ABZ", 1, 12)):
                self.shown(b"a@" + label)
        for letter in rfc3492.SAMPLES:
            self.shown(b"a@" + utf8.encoded(rfc3492.points(letter)))
            self.shown(b"a@xn--" + rfc3492.text(letter))

    def test_sums_that_are_too_large_L23(self):
        for many in range(1, 60):
            for digits in (b"9", b"z", b"0", b"9a", b"99a"):
                code = (digits * many)[:59]
                for label in (code, code[:-1] + b"a", b"b-" + code[:57], b"-" + code[:58]):
                    self.shown(b"a@xn--" + label)
        for point in [*range(0xD7F0, 0xE010), *range(0x10FFF0, 0x110010), 1 << 31, 1 << 32, 1 << 63, 1 << 64]:
            for points in ([point], [point, 0xE9], [0x62, point], [point, point]):
                self.shown(b"a@xn--" + punycode.encode(points))

    def test_message_after_message(self):
        """One table through many messages, so that tables that calls made are met too."""
        table = bytes(8 * tables.SLOT)
        for _ in range(CASES):
            receipt, outer, payload, gossip = self.cases.message()
            number, index, table_after = processing.process(table, receipt, outer, payload, gossip)
            self.assertEqual(self.peer.process(table, receipt, outer, payload, gossip), (number, index, table_after))
            table = table_after


if __name__ == "__main__":
    unittest.main()
