"""G1 and G2 run: what each number of the gossip setting makes of a payload.

The class is mixed into test cases, which name the `program`: whatever has the calls of `scope.calls`.
"""

import itertools

from mails import A, B, C, GROUP, RECEIPT, gossip_field, group_mail, key_field, mail
from scope.processing import SKIP, TAKE, UNSET
from scope.table import SLOT, TIME_LIMIT, Entry, entries, slot_of, table_of

# A mail to B, with a key of its own; what it leads to alone, and with gossip about B.
OUTER = mail(A, 1000, key_field(A, b"a"), b"To: " + B + b"\r\n")
SENT = Entry(A, 1000, 1000, b"a")
TOLD = Entry(B, gossip_timestamp=1000, gossip_key=b"b")

# Gossip about B; payloads that are unreadable, the last because it is too long; and one as long as a block may be.
GOSSIP = gossip_field(B, b"b")
UNREADABLE = [b"x", b" A:b\r\n", GOSSIP + b"no field\r\n", b"\n" * 65537]
FULL = (GOSSIP * (65536 // len(GOSSIP))).ljust(65536, b"\n")


class Settings:
    """G1: take alone takes. G2: where gossip is not taken, a payload is as though it were not there."""

    program = None

    def test_every_number_G1(self):
        for payload, number in itertools.product((GOSSIP, FULL), range(256)):
            answer = self.program.process(bytes(2 * SLOT), RECEIPT, OUTER, payload, number)
            self.assertEqual(answer, (0, 0, table_of([SENT, TOLD if number == TAKE else None])), number)

    def test_unreadable_payloads_G2_R7(self):
        for payload, number in itertools.product(UNREADABLE, range(256)):
            expected = (7, 0, bytes(SLOT)) if number == TAKE else (0, 0, slot_of(SENT))
            self.assertEqual(self.program.process(bytes(SLOT), RECEIPT, OUTER, payload, number), expected, number)

    def test_not_taken_is_as_without_a_payload_G2(self):
        """On tables with room for all, for the sender alone, with the sender in them, and with no room (8)."""
        tables = [bytes(2 * SLOT), bytes(SLOT), slot_of(Entry(A, 9)), slot_of(Entry(C))]
        for octets, number in itertools.product(tables, (UNSET, SKIP, 3, 255)):
            without = self.program.process(octets, RECEIPT, OUTER, b"", number)
            self.assertEqual(without[0], 8 if octets == tables[-1] else 0)
            for payload in UNREADABLE + [GOSSIP, FULL]:
                self.assertEqual(self.program.process(octets, RECEIPT, OUTER, payload, number), without)

    def test_with_take_an_empty_payload_is_none_G3(self):
        for octets in (bytes(SLOT), slot_of(Entry(C))):
            self.assertEqual(self.program.process(octets, RECEIPT, OUTER, b"", TAKE),
                             self.program.process(octets, RECEIPT, OUTER, b"", SKIP))

    def test_1_to_6_whatever_the_setting_U2_R31(self):
        report = OUTER + b"Content-Type: multipart/report\r\n"
        rows = [(1, b"", RECEIPT, OUTER), (2, b"x" * SLOT, RECEIPT, OUTER), (3, bytes(SLOT), TIME_LIMIT + 1, OUTER),
                (4, bytes(SLOT), RECEIPT, b"x"), (5, bytes(SLOT), RECEIPT, b"To: " + B + b"\r\n"),
                (6, bytes(SLOT), RECEIPT, report)]
        payloads, settings = (b"", b"x", GOSSIP), (UNSET, TAKE, SKIP, 3)
        for (answer, octets, *words), payload, number in itertools.product(rows, payloads, settings):
            self.assertEqual(self.program.process(octets, *words, payload, number), (answer, 0, octets))

    def test_forty_slots_and_group_mail_G1_R8(self):
        """Unless it is asked for, the gossip of a hundred mails fills no slot: five people wrote them."""
        for setting, stored, answers in ((UNSET, 5, {0}), (TAKE, 40, {0, 8})):
            held, numbers = bytes(40 * SLOT), set()
            for outer, payload in group_mail():
                number, _, held = self.program.process(held, RECEIPT, outer, payload, setting)
                numbers.add(number)
            addresses = [entry.address for entry in entries(held) if entry is not None]
            self.assertEqual((len(addresses), numbers), (stored, answers))
            self.assertLessEqual(set(GROUP), set(addresses))
