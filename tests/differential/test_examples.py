"""C15: the example messages of Autocrypt Level 1 through the shipped library, each call compared with the independent program."""
import itertools
import unittest

from both import Both
import examples
from examples import ALICE, BOB, BOB_KEY, CAROL, MAILS, RECEIPT, SETUP_DATE, TO_BOB_DATE, TO_BOTH_DATE, with_crlf
from scope.processing import SKIP, TAKE, UNSET
from scope.table import SLOT, TIME_LIMIT, Entry, entries, table_of

BOTH = Both()
SWITCHES = list(itertools.product((False, True), repeat=2))

# The correspondents as recipients: none, one, two and all of them, in every order.
LISTS = [to for many in range(4) for to in itertools.permutations((ALICE, BOB, CAROL), many)]

# The mails with the other line ending, and with one in the outer block and the other in the payload.
MAILS_CRLF = [(with_crlf(outer), with_crlf(payload)) for outer, payload in MAILS]
MAILS_MIXED = [(outer, with_crlf(payload)) for outer, payload in MAILS]

# Whom each of the mails brings where gossip is taken; Alice alone where it is not.
BROUGHT = [{ALICE}, {ALICE, BOB, CAROL}, {ALICE}]

# What a table may hold before: nothing, others alone, Alice with dates older than, equal to and newer than those of her
# mails, Bob and Carol by mails of their own and by gossip.
HELD = [
    [],
    [Entry(b"dave@autocrypt.example", 5, 5, b"d", True), Entry(b"alice@autocrypt.examples")],
    [Entry(ALICE, SETUP_DATE + 1)],
    [Entry(ALICE, TO_BOB_DATE, TO_BOB_DATE, b"another key", False, 9, b"told before")],
    [Entry(ALICE, TO_BOTH_DATE + 9, TO_BOTH_DATE + 1, b"a later key")],
    [Entry(BOB, TO_BOB_DATE, SETUP_DATE, BOB_KEY, True), Entry(CAROL, 3_024_001, 0, b"old", True, TO_BOTH_DATE, b"c")],
    [Entry(CAROL, None, None, None, False, TO_BOTH_DATE + 1, b"told later"), Entry(ALICE, 0), Entry(BOB, 7)],
]


def with_free(held: list[Entry], free: int) -> bytes:
    """A table of the entries and so many free slots, some in front of them and some behind."""
    return table_of([None] * (free // 2) + held + [None] * (free - free // 2))


def target_keys(table: bytes) -> dict[bytes, bytes]:
    """By address the direct key, else what was told, else no octets."""
    return {entry.address: entry.direct_key or entry.gossip_key or b"" for entry in entries(table) if entry}


class Processed(examples.Processed, unittest.TestCase):
    program = BOTH


class Told(examples.Told, unittest.TestCase):
    program = BOTH


class EveryWay(unittest.TestCase):
    """The mails in all orders, on tables with enough room and with too little: answers and whole tables after each of
    them, and all that may be asked of each table."""

    def setUp(self):
        self.tables = set()
        self.numbers = set()

    def fetch(self, table: bytes, mails: list, setting: int, receipt: int = RECEIPT, left: tuple = (0, 1, 2)):
        """The mails that are left, in every order; orders with the same beginning share it."""
        self.tables.add(table)
        held = entries(table)
        for place in left:
            number, index, after = BOTH.process(table, receipt, *mails[place], setting)
            brought = BROUGHT[place] if setting == TAKE else {ALICE}
            new = brought - {entry.address for entry in held if entry}
            self.assertEqual((number, index), (8 if len(new) > held.count(None) else 0, 0))
            self.numbers.add(number)
            self.fetch(after, mails, setting, receipt, tuple(other for other in left if other != place))

    def ask(self, table: bytes, to: tuple[bytes, ...], keys: list[bytes]):
        """The advice, and the key at each place and past the list, whatever the sender prefers and answers."""
        recipients = b", ".join(to)
        for switches in SWITCHES:
            number, _, _ = BOTH.recommend(table, recipients, *switches)
            self.assertEqual(number, 0 if to else 10)
            for place, key in enumerate(keys):
                start, length = BOTH.target_key(table, recipients, *switches, place)
                self.assertEqual(table[start : start + length], key)
        self.assertEqual(BOTH.target_key(table, recipients, True, True, (1 << 64) - 1), (0, 0))

    def test_orders_endings_settings_and_room(self):
        for held, free in itertools.product(HELD, range(4)):
            # A table has one slot at least; in an empty one a fourth is left over.
            table = with_free(held, free if held else free + 1)
            for mails, setting in itertools.product((MAILS, MAILS_CRLF), (UNSET, TAKE, SKIP, 255)):
                self.fetch(table, mails, setting)
        self.assertEqual(self.numbers, {0, 8})
        for table in self.tables:
            known = target_keys(table)
            for to in LISTS:
                self.ask(table, to, [known.get(address, b"") for address in to] + [b""])

    def test_receipt_times(self):
        """D2: each date is the receipt time where that is earlier; R3: which has a limit."""
        for receipt in (0, SETUP_DATE, TO_BOB_DATE - 1, TO_BOB_DATE, TO_BOB_DATE + 1, TIME_LIMIT):
            self.fetch(with_free([], 3), MAILS_MIXED, TAKE, receipt)
        for outer, payload in MAILS:
            self.assertEqual(BOTH.process(bytes(SLOT), TIME_LIMIT + 1, outer, payload, TAKE), (3, 0, bytes(SLOT)))


if __name__ == "__main__":
    unittest.main()
