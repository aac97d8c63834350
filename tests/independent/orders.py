"""C11 run: messages in many orders, and each of its premises dropped once.

The classes are mixed into test cases, which name the `program`: whatever has the calls of `scope.calls`.
"""

import itertools
import random
from dataclasses import dataclass

from mails import A, B, C, D, RECEIPT, gossip_field, key_field, mail
from scope.processing import SKIP, TAKE, UNSET
from scope.table import TIME_LIMIT, Entry, entries, table_of

ONE, TWO = b"one", b"two"

# Someone whose name has accents, and two spellings from before change 2 (L8, T16).
ZOE, OLD_ZOE, OTHER_ZOE = [text.encode() for text in ("zoëя@x.example", "zoËя@x.example", "zoëЯ@x.example")]

# Someone whose domain is in another script, and how it is typed (L22).
JAN = b"jan@xn--bcher-kva.example"
TYPED_JAN = "jan@bücher.example".encode()


def loud(address: bytes) -> bytes:
    """The address in capitals, those beyond ASCII included, its domain as it is typed."""
    return (TYPED_JAN if address == JAN else address).decode().upper().encode()


@dataclass
class Call:
    """A message with its own receipt time and gossip setting."""
    outer: bytes
    payload: bytes = b""
    gossip: int = UNSET
    receipt: int = RECEIPT


def keyed(sender: bytes, date: int, key: bytes, mutual: bool = False) -> Call:
    return Call(mail(sender, date, key_field(sender, key, mutual)))


def told(*about: tuple[bytes, bytes]) -> tuple[bytes, bytes]:
    """The To field for the recipients, and the gossip about them."""
    to = b"To: " + b", ".join(address for address, _ in about) + b"\r\n"
    return to, b"".join(gossip_field(address, key) for address, key in about)


def telling(sender: bytes, date: int, *about: tuple[bytes, bytes]) -> Call:
    """A message with gossip about its recipients, which is asked for."""
    to, payload = told(*about)
    return Call(mail(sender, date, to), payload, TAKE)


def fetch(program, table: bytes, calls: list[Call]) -> tuple[list[int], bytes]:
    """The numbers that the calls answer, one after the other, and the table after them."""
    numbers = []
    for call in calls:
        number, _, table = program.process(table, call.receipt, call.outer, call.payload, call.gossip)
        numbers.append(number)
    return numbers, table


def by_address(table: bytes) -> dict[bytes, Entry]:
    """The entries, whichever slots they stand in."""
    return {entry.address: entry for entry in entries(table) if entry is not None}


def advice(program, table: bytes, to: list[bytes], mutual: bool = True, reply: bool = False) -> tuple:
    """What is recommended for recipients, in full and quickly, and the octets of their target keys, the place past the
    list among them."""
    call = table, b", ".join(to), mutual, reply
    parts = [program.target_key(*call, place) for place in range(len(to) + 1)]
    return program.recommend(*call), program.quick(*call), [table[at:at + length] for at, length in parts]


class EachPremise:
    """C11: without one of its premises two orders lead to different entries."""

    program = None

    def orders(self, calls: list[Call], held: list[Entry | None]) -> tuple:
        """What the calls lead to, and what they do in the other order."""
        return fetch(self.program, table_of(held), calls), fetch(self.program, table_of(held), calls[::-1])

    def test_room_C11(self):
        # R8: one free slot, two new senders: the second one is refused.
        (numbers, table), (others, other) = self.orders([keyed(A, 1000, ONE), keyed(B, 2000, TWO)], [None])
        self.assertEqual((numbers, others), ([0, 8], [0, 8]))
        self.assertEqual((set(by_address(table)), set(by_address(other))), ({A}, {B}))

    def test_room_beside_others_C11(self):
        # So it is in a table that holds others, and where gossip takes the last slot.
        calls = [telling(C, 1000, (A, ONE)), keyed(B, 2000, TWO)]
        (numbers, table), (others, other) = self.orders(calls, [Entry(C, 500), None, Entry(D, 9, 9, ONE)])
        self.assertEqual((numbers, others), ([0, 8], [0, 8]))
        self.assertEqual((set(by_address(table)), set(by_address(other))), ({A, C, D}, {B, C, D}))
        self.assertEqual((by_address(table)[C].last_seen, by_address(other)[C].last_seen), (1000, 500))

    def test_one_direct_key_at_one_date_C11(self):
        # U8: of equal dates the last one stands.
        (numbers, table), (others, other) = self.orders([keyed(A, 1000, ONE), keyed(A, 1000, TWO)], [None])
        self.assertEqual((numbers, others), ([0, 0], [0, 0]))
        self.assertEqual(by_address(table)[A].direct_key, TWO)
        self.assertEqual(by_address(other)[A].direct_key, ONE)
        self.assertNotEqual(advice(self.program, table, [A]), advice(self.program, other, [A]))

    def test_one_preference_at_one_date_C11(self):
        # The same key, with and without mutual.
        (_, table), (_, other) = self.orders([keyed(A, 1000, ONE, True), keyed(A, 1000, ONE)], [None])
        self.assertFalse(by_address(table)[A].mutual)
        self.assertTrue(by_address(other)[A].mutual)
        self.assertNotEqual(advice(self.program, table, [A]), advice(self.program, other, [A]))

    def test_one_gossip_key_at_one_date_C11(self):
        # G7: two senders tell of one recipient at the same date.
        calls = [telling(A, 1000, (C, ONE)), telling(B, 1000, (C, TWO))]
        (numbers, table), (others, other) = self.orders(calls, [None, None, None])
        self.assertEqual((numbers, others), ([0, 0], [0, 0]))
        self.assertEqual(by_address(table)[C].gossip_key, TWO)
        self.assertEqual(by_address(other)[C].gossip_key, ONE)
        self.assertNotEqual(advice(self.program, table, [C]), advice(self.program, other, [C]))

    def test_the_same_receipt_times_C11(self):
        # D2: without a Date the receipt time is the date: fetched at another time it is another message.
        first = Call(mail(A, None, key_field(A, ONE)), receipt=1000)
        second = Call(mail(A, None, key_field(A, TWO)), receipt=2000)
        early = Call(second.outer, receipt=1000)
        late = Call(first.outer, receipt=2000)
        _, table = fetch(self.program, table_of([None]), [first, second])
        _, other = fetch(self.program, table_of([None]), [early, late])
        self.assertEqual(by_address(table)[A].direct_key, TWO)
        self.assertEqual(by_address(other)[A].direct_key, ONE)

    def test_the_same_gossip_settings_C11(self):
        # G1: so it is where one run takes gossip and the other one skips it, or says nothing about it.
        call = telling(A, 1000, (B, ONE))
        _, table = fetch(self.program, table_of([None, None]), [call])
        self.assertEqual(set(by_address(table)), {A, B})
        for setting in (SKIP, UNSET):
            _, other = fetch(self.program, table_of([None, None]), [Call(call.outer, call.payload, setting)])
            self.assertEqual(set(by_address(other)), {A})

    def test_a_sound_table_C11(self):
        # Every call refuses any other table and leaves it, so that it has no entries to speak of.
        calls = [keyed(A, 1000, ONE), keyed(A, 2000, TWO)]
        for table, number in [(b"", 1), (table_of([Entry(B, 1, 2, ONE)]), 2), (table_of([Entry(OLD_ZOE, 1), None]), 2)]:
            self.assertEqual(self.program.check(table)[0], number)
            for order in itertools.permutations(calls):
                self.assertEqual(fetch(self.program, table, list(order)), ([number, number], table))

    def test_two_spellings_of_one_domain_C11_L22(self):
        # One person, in every order; and two keys at one date disagree, however the domain is spelled.
        calls = [keyed(JAN, 1000, ONE), keyed(TYPED_JAN, 2000, TWO, True), telling(A, 1500, (loud(JAN), ONE)),
                 telling(B, 1400, (TYPED_JAN, TWO))]
        for order in itertools.permutations(calls):
            numbers, table = fetch(self.program, table_of([None] * 3), list(order))
            self.assertEqual(numbers, [0] * 4)
            self.assertEqual(by_address(table), {JAN: Entry(JAN, 2000, 2000, TWO, True, 1500, ONE), A: Entry(A, 1500),
                                                 B: Entry(B, 1400)})
            for spelling in (JAN, TYPED_JAN, loud(JAN)):
                self.assertEqual(advice(self.program, table, [spelling]), ((0, 0, 4), (0, 0, 4, 1), [TWO, b""]))
        (_, table), (_, other) = self.orders([keyed(JAN, 1000, ONE), keyed(loud(JAN), 1000, TWO)], [None])
        self.assertEqual((by_address(table)[JAN].direct_key, by_address(other)[JAN].direct_key), (TWO, ONE))

    def test_a_converted_table_C11(self):
        # T20: one from before change 2 is converted first; then the order does not matter.
        old = table_of([Entry(OLD_ZOE, 500, 500, ONE), Entry(ZOE, 900, gossip_timestamp=700, gossip_key=TWO), None])
        number, _, table = self.program.convert(old)
        self.assertEqual(number, 0)
        calls = [keyed(loud(ZOE), 1000, TWO), keyed(A, 2000, ONE), telling(A, 600, (OTHER_ZOE, ONE))]
        for order in itertools.permutations(calls):
            numbers, after = fetch(self.program, table, list(order))
            self.assertEqual(numbers, [0, 0, 0])
            self.assertEqual(by_address(after), {ZOE: Entry(ZOE, 1000, 1000, TWO, False, 700, TWO),
                                                 A: Entry(A, 2000, 2000, ONE)})


PEOPLE = (A, B, C, ZOE, JAN)
STRANGER = b"e@x.example"


class Agreeing:
    """Messages that agree with one another, and tables for them, made from a seed."""

    def __init__(self, seed: int) -> None:
        self.random = random.Random(seed)

    def one_in(self, many: int) -> bool:
        return self.random.randrange(many) == 0

    def call(self) -> Call:
        """A message. What it brings an address is made from the address and the date, and so messages agree."""
        date = self.random.randrange(1, 6)
        sender = self.random.choice(PEOPLE)
        about = self.random.sample(PEOPLE, self.random.randrange(4))
        to, payload = told(*((self.spelled(address), b"told %d " % date + address) for address in about))
        # Its last field counts, and a field about someone else is not accepted.
        if about and self.one_in(3):
            payload = gossip_field(self.spelled(about[0]), b"unlike the next") + payload
        if self.one_in(4):
            payload += gossip_field(STRANGER, b"never heard")
        # The effective date is the Date, the receipt time without one, or the receipt time before it.
        sent, receipt = self.random.choice([(date, RECEIPT), (date, RECEIPT), (None, date), (date + 9, date)])
        outer = mail(self.spelled(sender), sent, to, *self.key_fields(sender, date))
        gossip = self.random.choice([UNSET, SKIP, 3, 255]) if self.one_in(6) else TAKE
        call = Call(outer, payload, gossip, receipt)
        return self.refused(call) if self.one_in(4) else call

    def spelled(self, address: bytes) -> bytes:
        """The address as it is stored, in capitals, or its domain coded in capitals; the same in every message (L8)."""
        return self.random.choice([address, loud(address), address.decode().upper().encode()])

    def key_fields(self, sender: bytes, date: int) -> list[bytes]:
        """None, one that counts, alone or beside one that is not valid, or two, of which none counts."""
        good = key_field(self.spelled(sender), b"sent %d " % date + sender, (date + sender[0]) % 2 == 0)
        return self.random.choice([[], [good], [good], [key_field(STRANGER, ONE), good], [good, good]])

    def refused(self, call: Call) -> Call:
        """The message with what makes it refused, whichever the table: 3 to 7, but 7 only where gossip is taken."""
        kind = self.random.randrange(3, 8)
        if kind == 3:
            call.receipt = TIME_LIMIT + 1
        elif kind == 4:
            call.outer = b" " + call.outer
        elif kind == 5:
            call.outer += b"From: " + A + b"\r\n"
        elif kind == 6:
            call.outer += b"Content-Type: multipart/report\r\n"
        else:
            call.payload += b"no field\r\n"
        return call

    def entry(self, address: bytes) -> Entry:
        """An entry with dates older than, equal to and newer than those of the messages."""
        entry = Entry(address)
        if not self.one_in(4):
            entry.last_seen = self.random.randrange(7)
            if not self.one_in(3):
                entry.autocrypt_timestamp = self.random.randrange(entry.last_seen + 1)
                entry.direct_key, entry.mutual = b"kept " + address, self.one_in(2)
        if self.one_in(2):
            entry.gossip_timestamp, entry.gossip_key = self.random.randrange(7), b"heard " + address
        return entry

    def table(self, program, calls: list[Call]) -> bytes:
        """A sound table, with or without entries, and with just as many free slots as the messages ask for."""
        held: list[Entry | None] = [self.entry(address) for address in PEOPLE if self.one_in(3)]
        _, after = fetch(program, table_of(held + [None] * len(PEOPLE)), calls)
        slots = held + [None] * max(len(by_address(after)) - len(held), 0 if held else 1)
        self.random.shuffle(slots)
        return table_of(slots)

    def lists(self) -> list[list[bytes]]:
        """Recipients: one, all, and some with a stranger among them, in any spelling."""
        return [[self.spelled(address) for address in some] for some in (
            [self.random.choice(PEOPLE)], self.random.sample(PEOPLE, len(PEOPLE)),
            self.random.sample(PEOPLE + (STRANGER,), 2))]


class AnyOrder:
    """C11: with the premises, every order leads to the same entries, advice, counts and target keys."""

    program = None
    seed = 3

    def says(self, table: bytes, lists: list[list[bytes]]) -> tuple:
        """All that is the same in every order."""
        switches = list(itertools.product((False, True), repeat=2))
        return by_address(table), [advice(self.program, table, to, *both) for to in lists for both in switches]

    def same(self, made: Agreeing, calls: list[Call], orders) -> tuple[set[int], int]:
        """The numbers that are answered, and how many tables the orders of the calls' places end with."""
        table, lists = made.table(self.program, calls), made.lists()
        first, _ = fetch(self.program, table, calls)
        ends: dict[bytes, tuple] = {}
        for order in orders:
            numbers, after = fetch(self.program, table, [calls[place] for place in order])
            self.assertEqual(numbers, [first[place] for place in order])
            if after not in ends:
                ends[after] = self.says(after, lists)
        one, *others = ends.values()
        for other in others:
            self.assertEqual(other, one)
        return set(first), len(ends)

    def test_every_order_of_a_few_C11(self):
        made = Agreeing(self.seed)
        answered: set[int] = set()
        several = 0
        for size, sets in [(2, 40), (3, 40), (4, 20), (5, 2)]:
            for _ in range(sets):
                calls = [made.call() for _ in range(size)]
                numbers, tables = self.same(made, calls, itertools.permutations(range(size)))
                answered |= numbers
                several += tables > 1
        self.assertEqual(answered, {0, 3, 4, 5, 6, 7})
        # Newcomers take other slots in other orders: the tables differ, and say the same.
        self.assertGreater(several, 20)

    def test_many_orders_of_many_C11(self):
        made = Agreeing(self.seed + 1)
        several = 0
        for size in (8, 12, 20, 30):
            calls = [made.call() for _ in range(size)]
            orders = [made.random.sample(range(size), size) for _ in range(24)]
            several += self.same(made, calls, orders)[1] > 1
        self.assertGreater(several, 1)
