"""C15: the example messages of Autocrypt Level 1 (its sections 6.2, 6.3 and 6.7), and what they lead to.

They stand in tests/messages as the older draft prints them.
"""

import hashlib
import itertools
import pathlib

from scope import header, keyfield
from scope.processing import SKIP, TAKE, UNSET
from scope.recommending import AVAILABLE, DISABLE, DISCOURAGE, ENCRYPT
from scope.table import SLOT, Entry, entries, table_of

MESSAGES = pathlib.Path(__file__).parent / "tests" / "messages"

ALICE = b"alice@autocrypt.example"
BOB = b"bob@autocrypt.example"
CAROL = b"carol@autocrypt.example"

TO_BOB_DATE = 1510062830
TO_BOTH_DATE = 1510062985
SETUP_DATE = 1509871478

# When all three have been received.
RECEIPT = 1510100000


def message(name: str) -> bytes:
    return (MESSAGES / name).read_bytes()


def with_crlf(octets: bytes) -> bytes:
    return octets.replace(b"\n", b"\r\n")


TO_BOB = message("alice-to-bob.txt")
TO_BOTH = message("alice-to-both.txt")
PAYLOAD = message("alice-to-both-payload.txt")
SETUP = message("setup.txt")

# Each outer block with the header block of its decrypted payload.
MAILS = [(TO_BOB, b""), (TO_BOTH, PAYLOAD), (SETUP, b"")]


def key_of(block: bytes, name: bytes, place: int = 0) -> bytes:
    field = keyfield.read(header.values_of(header.fields(block), name)[place])
    return field.key


def first_packet_fingerprint(key: bytes) -> bytes:
    """RFC 4880, section 12.2, for a key that opens with an old-format packet of tag 6."""
    assert key[0] == 0x99
    length = int.from_bytes(key[1:3], "big")
    return hashlib.sha1(b"\x99" + key[1:3] + key[3:3 + length]).digest()


ALICE_KEY = key_of(TO_BOB, b"Autocrypt")
BOB_KEY = key_of(PAYLOAD, b"Autocrypt-Gossip", 0)
CAROL_KEY = key_of(PAYLOAD, b"Autocrypt-Gossip", 1)

# What the second message leads to.
ALICE_SENT = Entry(ALICE, TO_BOTH_DATE, TO_BOTH_DATE, ALICE_KEY, True)
BOB_TOLD = Entry(BOB, gossip_timestamp=TO_BOTH_DATE, gossip_key=BOB_KEY)
CAROL_TOLD = Entry(CAROL, gossip_timestamp=TO_BOTH_DATE, gossip_key=CAROL_KEY)


class Examples:
    """To be mixed into a test case, which names the `program`: whatever has the calls of `scope.calls`."""

    program = None

    def table_after(self, table: bytes, *arguments) -> bytes:
        number, index, after = self.program.process(table, *arguments)
        self.assertEqual((number, index), (0, 0))
        self.assertEqual(self.program.check(after), (0, 0))
        return after

    def after(self, table: bytes, *arguments) -> list[Entry | None]:
        return entries(self.table_after(table, *arguments))

    def advised(self, table: bytes, to: list[bytes], mutual: bool, reply: bool) -> int:
        number, index, advice = self.program.recommend(table, b", ".join(to), mutual, reply)
        self.assertEqual((number, index), (0, 0))
        return advice

    def target_keys(self, table: bytes, to: list[bytes]) -> list[bytes]:
        """The octets at each place."""
        parts = [self.program.target_key(table, b", ".join(to), True, True, place) for place in range(len(to))]
        return [table[start:start + length] for start, length in parts]


class Processed(Examples):
    """The entries after the messages: pages U and G on whole mails."""

    def test_the_first_message_U8_B15(self):
        expected = Entry(ALICE, TO_BOB_DATE, TO_BOB_DATE, ALICE_KEY, True)
        for block in (TO_BOB, with_crlf(TO_BOB)):
            self.assertEqual(self.after(bytes(2 * SLOT), RECEIPT, block, b"", UNSET), [expected, None])

    def test_received_before_it_was_sent_D2(self):
        self.assertEqual(self.after(bytes(SLOT), TO_BOB_DATE - 1, TO_BOB, b"", UNSET),
                         [Entry(ALICE, TO_BOB_DATE - 1, TO_BOB_DATE - 1, ALICE_KEY, True)])

    def test_the_gossip_message_G1_G7(self):
        self.assertEqual(self.after(bytes(4 * SLOT), RECEIPT, TO_BOTH, PAYLOAD, TAKE),
                         [ALICE_SENT, BOB_TOLD, CAROL_TOLD, None])
        self.assertEqual(self.after(bytes(3 * SLOT), RECEIPT, with_crlf(TO_BOTH), with_crlf(PAYLOAD), TAKE),
                         [ALICE_SENT, BOB_TOLD, CAROL_TOLD])
        for setting in (UNSET, SKIP):
            self.assertEqual(self.after(bytes(3 * SLOT), RECEIPT, TO_BOTH, PAYLOAD, setting),
                             [ALICE_SENT, None, None])

    def test_too_few_slots_for_the_gossip_message_R8(self):
        self.assertEqual(self.program.process(bytes(2 * SLOT), RECEIPT, TO_BOTH, PAYLOAD, TAKE),
                         (8, 0, bytes(2 * SLOT)))

    def test_the_messages_in_every_order_C11(self):
        for order in itertools.permutations(MAILS):
            held = bytes(3 * SLOT)
            for outer, payload in order:
                held = self.table_after(held, RECEIPT, outer, payload, TAKE)
            self.assertEqual(entries(held), [ALICE_SENT, BOB_TOLD, CAROL_TOLD])

    def test_the_recommendation_afterwards_A2_A4(self):
        held = self.table_after(bytes(3 * SLOT), RECEIPT, TO_BOTH, PAYLOAD, TAKE)
        self.assertEqual(self.advised(held, [ALICE], True, False), 4)
        self.assertEqual(self.advised(held, [ALICE], False, False), 3)
        self.assertEqual(self.advised(held, [BOB, CAROL], True, False), 2)
        self.assertEqual(self.advised(held, [BOB, CAROL], True, True), 4)
        self.assertEqual(self.target_keys(held, [ALICE, CAROL]), [ALICE_KEY, CAROL_KEY])

    def test_the_fields_of_the_examples_are_written_as_they_stand_W2_W4(self):
        number, field = self.program.write_autocrypt(ALICE, ALICE_KEY, True, 4000)
        self.assertEqual(number, 0)
        self.assertIn(field, with_crlf(TO_BOB))
        self.assertIn(field, with_crlf(TO_BOTH))
        for name, key in ((BOB, BOB_KEY), (CAROL, CAROL_KEY)):
            number, field = self.program.write_gossip(name, key, 4000)
            self.assertEqual(number, 0)
            self.assertIn(field, with_crlf(PAYLOAD))


class Told(Examples):
    """What Autocrypt Level 1 expects of its examples; a name ends with the section."""

    EITHER = (False, True)

    def test_bob_can_write_back_encrypted_6_2(self):
        # A4: Alice's plain mail is enough for Bob to encrypt his answer: by default where he prefers it as she does,
        # else when he chooses to. The key for it has the key id that stands in her mail.
        held = self.table_after(bytes(SLOT), RECEIPT, TO_BOB, b"", UNSET)
        self.assertEqual(self.advised(held, [ALICE], True, False), ENCRYPT)
        self.assertEqual(self.advised(held, [ALICE], False, False), AVAILABLE)
        self.assertEqual(self.target_keys(held, [ALICE]), [ALICE_KEY])
        self.assertEqual(first_packet_fingerprint(ALICE_KEY)[-8:].hex().upper(), "71DBC5657FDE65A7")

    def test_alice_tells_the_keys_that_she_has_6_3(self):
        # A6, W3: she has mail with keys from Bob and from Carol. What she would encrypt to is what her gossip fields
        # tell, and the program writes them as they are printed there.
        held = bytes(2 * SLOT)
        for address, key in ((BOB, BOB_KEY), (CAROL, CAROL_KEY)):
            _, field = self.program.write_autocrypt(address, key, False, 4000)
            held = self.table_after(held, RECEIPT, b"From: " + address + b"\r\n" + field, b"", UNSET)
        self.assertEqual(self.advised(held, [BOB, CAROL], True, False), AVAILABLE)
        fields = b""
        for address, key in zip((BOB, CAROL), self.target_keys(held, [BOB, CAROL])):
            fields += self.program.write_gossip(address, key, 4000)[1]
        self.assertTrue(with_crlf(PAYLOAD).startswith(fields + b"Content-Type: text/plain\r\n"))

    def test_both_reply_to_all_and_the_thread_stays_encrypted_6_3(self):
        # A4, G7: neither knew the other before, nor has to prefer encryption; Alice may have written before or not.
        for before in ([None], [Entry(ALICE, SETUP_DATE)]):
            held = self.table_after(table_of(before + [None, None]), RECEIPT, TO_BOTH, PAYLOAD, TAKE)
            for other, key in ((CAROL, CAROL_KEY), (BOB, BOB_KEY)):
                for mutual in self.EITHER:
                    self.assertEqual(self.advised(held, [ALICE, other], mutual, True), ENCRYPT)
                self.assertEqual(self.target_keys(held, [ALICE, other]), [ALICE_KEY, key])

    def test_a_new_mail_to_the_other_is_possible_but_discouraged_6_3_3_4_2(self):
        # A2: being introduced is no more than gossip: encryption is possible, and not the default.
        held = self.table_after(bytes(3 * SLOT), RECEIPT, TO_BOTH, PAYLOAD, TAKE)
        for mutual in self.EITHER:
            for other in (BOB, CAROL):
                self.assertEqual(self.advised(held, [other], mutual, False), DISCOURAGE)
                self.assertEqual(self.advised(held, [ALICE, other], mutual, False), DISCOURAGE)

    def test_without_gossip_the_reply_to_all_cannot_be_encrypted_6_4(self):
        # A5, G2: the answer is plain, because it is not known yet how to encrypt to one of the others. To Alice it need
        # not be.
        for setting in (UNSET, SKIP):
            held = self.table_after(bytes(3 * SLOT), RECEIPT, TO_BOTH, PAYLOAD, setting)
            for mutual in self.EITHER:
                self.assertEqual(self.advised(held, [ALICE, CAROL], mutual, True), DISABLE)
                self.assertEqual(self.advised(held, [ALICE], mutual, True), ENCRYPT)
            self.assertEqual(self.target_keys(held, [ALICE, CAROL]), [ALICE_KEY, b""])

    def test_the_setup_message_has_no_autocrypt_field_6_7(self):
        # U5: a mail of Alice to herself like any mail without the field: she was seen, and there is no key of hers yet.
        for block in (SETUP, with_crlf(SETUP)):
            held = self.table_after(bytes(SLOT), RECEIPT, block, b"", UNSET)
            self.assertEqual(entries(held), [Entry(ALICE, SETUP_DATE)])
            self.assertEqual(self.advised(held, [ALICE], True, True), DISABLE)
            self.assertEqual(self.target_keys(held, [ALICE]), [b""])
