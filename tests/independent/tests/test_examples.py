"""C15: the example messages of Autocrypt Level 1 (its sections 6.2, 6.3 and 6.7), processed whole by the independent
program.

The tests of the copies show that the keys are intact: each is an OpenPGP key whose first packet has the fingerprint
that its own signatures name.
"""

import unittest

import examples
from examples import (ALICE_KEY, BOB, BOB_KEY, CAROL, CAROL_KEY, PAYLOAD, RECEIPT, SETUP, SETUP_DATE, TO_BOB,
                      TO_BOB_DATE, TO_BOTH, TO_BOTH_DATE, first_packet_fingerprint, key_of, with_crlf)
from scope import address, calls, date, header, listing
from scope.processing import TAKE
from scope.table import SLOT


class Copies(unittest.TestCase):
    def test_the_keys_are_intact_C15(self):
        for key in (ALICE_KEY, BOB_KEY, CAROL_KEY):
            self.assertEqual(len(key), 1758)
            # Both signatures name the fingerprint (subpacket 33, version 4).
            self.assertEqual(key.count(b"\x16\x21\x04" + first_packet_fingerprint(key)), 2)
        self.assertEqual(len({ALICE_KEY, BOB_KEY, CAROL_KEY}), 3)

    def test_both_messages_of_alice_carry_one_key_C15(self):
        self.assertEqual(key_of(TO_BOTH, b"Autocrypt"), ALICE_KEY)


class Reading(unittest.TestCase):
    def test_the_fields_of_the_first_message_B7_B11(self):
        names = [name for name, _ in header.fields(TO_BOB)]
        self.assertEqual(names, [b"Delivered-To", b"From", b"To", b"Subject", b"Autocrypt", b"Date",
                                 b"Message-ID", b"MIME-Version", b"Content-Type"])
        self.assertEqual(header.values_of(header.fields(TO_BOB), b"from"),
                         [b" Alice <alice@autocrypt.example>"])

    def test_the_fields_of_the_payload_B7(self):
        names = [name for name, _ in header.fields(PAYLOAD)]
        self.assertEqual(names, [b"Autocrypt-Gossip", b"Autocrypt-Gossip", b"Content-Type"])

    def test_addresses_L17(self):
        self.assertEqual(address.addresses(header.values_of(header.fields(TO_BOTH), b"To")[0]),
                         [BOB, CAROL])

    def test_dates_D2(self):
        for block, expected in ((TO_BOB, TO_BOB_DATE), (TO_BOTH, TO_BOTH_DATE), (SETUP, SETUP_DATE)):
            values = header.values_of(header.fields(block), b"Date")
            self.assertEqual(date.effective(values, RECEIPT), expected)

    def test_crlf_makes_no_difference_B15(self):
        for block in (TO_BOB, TO_BOTH, PAYLOAD, SETUP):
            self.assertEqual(header.fields(with_crlf(block)), header.fields(block))


class Processed(examples.Processed, unittest.TestCase):
    program = calls

    def test_the_listing_afterwards_W8(self):
        held = self.table_after(bytes(3 * SLOT), RECEIPT, TO_BOTH, PAYLOAD, TAKE)
        self.assertEqual(listing.listing(held), (
            b"alice@autocrypt.example 1510062985 1510062985 1758 mutual - 0\n"
            b"bob@autocrypt.example - - 0 none 1510062985 1758\n"
            b"carol@autocrypt.example - - 0 none 1510062985 1758\n"))


class Told(examples.Told, unittest.TestCase):
    program = calls


if __name__ == "__main__":
    unittest.main()
