"""Pages U and G: refusals 1 to 8 in order, and the update of the table."""

import itertools
import unittest
from collections import Counter

from cases import Cases
from mails import A, B, C, D, RECEIPT, date_text, gossip_field, key_field, mail
from scope.processing import SKIP, TAKE, UNSET, process
from scope.recommending import target_key
from scope.table import BITS_AT, SLOT, TIME_LIMIT, Entry, check, entries, slot_of, table_of
from scope.writing import write_autocrypt, write_gossip


class Case(unittest.TestCase):
    def after(self, held: list[Entry | None], outer: bytes, payload: bytes = b"", gossip: int = TAKE,
              receipt: int = RECEIPT) -> list[Entry | None]:
        """The entries after a message that is not refused."""
        number, index, octets = process(table_of(held), receipt, outer, payload, gossip)
        self.assertEqual((number, index), (0, 0))
        self.assertEqual(check(octets), (0, 0))
        return entries(octets)

    def refused(self, expected: int, octets: bytes, receipt: int, outer: bytes, payload: bytes = b"",
                gossip: int = TAKE, index: int = 0) -> None:
        """The message is refused with a number, and the table stays (R32)."""
        self.assertEqual(process(octets, receipt, outer, payload, gossip), (expected, index, octets))


class Settings(unittest.TestCase):
    def test_the_numbers_of_the_gossip_setting_G1(self):
        self.assertEqual((UNSET, TAKE, SKIP), (0, 1, 2))


class Refusals(Case):
    """R1 to R8 and R31 to R36, and what does not refuse a message."""

    GOOD = mail(A, 1000)

    def test_1_R1(self):
        for length in (0, 1, SLOT - 1, SLOT + 1, 257 * SLOT):
            self.refused(1, bytes(length), RECEIPT, self.GOOD)
        for slots in (1, 256):
            self.assertEqual(process(bytes(slots * SLOT), RECEIPT, self.GOOD, b"", UNSET)[0], 0)

    def test_2_R2(self):
        bad = slot_of(Entry(b"A@b"))
        self.refused(2, bad, RECEIPT, self.GOOD)
        self.refused(2, bytes(3 * SLOT) + bad + bad, RECEIPT, self.GOOD, index=3)

    def test_an_old_spelling_T20(self):
        old = slot_of(Entry("zoË@x".encode(), 1))
        self.refused(2, old, RECEIPT, self.GOOD)
        self.refused(2, slot_of(Entry(A)) + bytes(SLOT) + old, RECEIPT, mail("zoË@x".encode(), 1000), index=2)

    def test_3_R3(self):
        self.refused(3, bytes(SLOT), TIME_LIMIT + 1, self.GOOD)
        self.refused(3, bytes(SLOT), (1 << 64) - 1, self.GOOD)
        self.assertEqual(self.after([None], self.GOOD, receipt=TIME_LIMIT), [Entry(A, 1000)])
        self.assertEqual(self.after([None], mail(A, None), receipt=TIME_LIMIT),
                         [Entry(A, TIME_LIMIT)])
        self.assertEqual(self.after([None], mail(A, None), receipt=0), [Entry(A, 0)])

    def test_4_R4(self):
        for block in [b" " + self.GOOD, self.GOOD + b"x\r\n", b"\r", self.GOOD + b"\r",
                      b"From a@b\r\n" + self.GOOD]:
            self.refused(4, bytes(SLOT), RECEIPT, block)

    def test_4_at_both_ends_of_the_limit_B1_R4(self):
        filler = b"\r\n" + b"x" * (65536 - 2 - len(self.GOOD))
        self.assertEqual(self.after([None], self.GOOD + filler), [Entry(A, 1000)])
        self.refused(4, bytes(SLOT), RECEIPT, self.GOOD + filler + b"x")

    def test_5_R5_B4(self):
        for block in [b"", b"\r\n" + self.GOOD, b"To: a@b\r\n", b"Sender: a@b\r\n", b"From:\r\n",
                      b"From: a@b, c@d\r\n", b"From: a@b\r\nFrom: a@b\r\n", b"From: g:;\r\n",
                      b"From: a@b,\r\n", b"From: a\r\n", b"From: <>\r\n", b"From: a@b\r",
                      b"From: g: a@b, c@d;\r\n", b"From: \"a\"@b\r\n", b"From: a@b\r\nfrom: c@d\r\n",
                      b"From: " + b"a" * 65 + b"@b\r\n"]:
            self.refused(5, bytes(SLOT), RECEIPT, block)

    def test_one_address_in_from_U3_L14_L19(self):
        for value in [b"a@x.example", b"A <A@X.Example> (c)", b"g: a@x.example;", b"g:;, a@x.example",
                      b"g:;, h:a@x.example;", b"\r\n\ta@x.example\r\n "]:
            self.assertEqual(self.after([None], b"fRoM: " + value + b"\r\n"), [Entry(A, RECEIPT)])

    def test_a_list_that_gives_no_address_L18(self):
        """Unreadable or readable, it gives 5 as From, and adds no recipient as To."""
        for value in (b"", b" ", b"(c)", b"g:;", b"g: (c) ;, h:;"):
            self.refused(5, bytes(SLOT), RECEIPT, b"From:" + value + b"\r\n")
            outer = mail(A, 1000, b"To:" + value + b"\r\n")
            self.assertEqual(self.after([None, None], outer, gossip_field(B, b"b")), [Entry(A, 1000), None])

    def test_a_sender_field_does_not_help_R5_R36(self):
        """Several senders are refused and not passed over, whatever Sender says; so are reports."""
        for outer, number in [(b"From: a@b, c@d\r\nSender: a@b\r\n", 5),
                              (b"From: a@b\r\nFrom: c@d\r\nSender: c@d\r\n", 5),
                              (self.GOOD + b"Content-Type: multipart/report; report-type=x\r\n", 6)]:
            self.refused(number, bytes(SLOT), RECEIPT, outer)

    def test_6_R6(self):
        for line in [b"Content-Type: multipart/report\r\n", b"content-type:MULTIPART/Report;x=y\r\n",
                     b"Content-Type: text/plain\r\nContent-Type: multipart/report\r\n",
                     b"Content-Type: multipart/report\r\nContent-Type: text/plain\r\n",
                     b"Content-Type:\r\n multipart/report\r\n"]:
            self.refused(6, bytes(SLOT), RECEIPT, self.GOOD + line)
        for line in [b"Content-Type: multipart/reports\r\n", b"Content-Type: (c) multipart/report\r\n",
                     b"Content-Type: multipart/mixed\r\n", b"X-Content-Type: multipart/report\r\n",
                     b"\r\nContent-Type: multipart/report\r\n"]:
            self.assertEqual(self.after([None], self.GOOD + line), [Entry(A, 1000)])

    def test_a_report_in_the_payload_is_not_looked_at_B12_R6(self):
        self.assertEqual(self.after([None], self.GOOD, b"Content-Type: multipart/report\r\n"),
                         [Entry(A, 1000)])

    def test_7_R7(self):
        for payload in [b"x", b" A:b\r\n"]:
            self.refused(7, bytes(SLOT), RECEIPT, self.GOOD, payload)

    def test_7_at_both_ends_of_the_limit_B1_R7(self):
        self.assertEqual(self.after([None], self.GOOD, b"\n" * 65536), [Entry(A, 1000)])
        self.refused(7, bytes(SLOT), RECEIPT, self.GOOD, b"\n" * 65537)

    def test_no_payload_U1_G3(self):
        for gossip in (UNSET, TAKE, SKIP):
            self.assertEqual(self.after([None], self.GOOD, b"", gossip), [Entry(A, 1000)])

    def test_8_for_the_sender_U5_R8(self):
        full = table_of([Entry(B), Entry(C)])
        self.refused(8, full, RECEIPT, self.GOOD)
        self.assertEqual(self.after([Entry(B), Entry(A)], self.GOOD), [Entry(B), Entry(A, 1000)])

    def test_8_counts_each_new_address_once_R8(self):
        outer = mail(A, 1000, b"To: " + B + b", " + C + b", " + A + b"\r\n")
        payload = (gossip_field(B, b"1") + gossip_field(A, b"2") + gossip_field(b"B@X.example", b"3")
                   + gossip_field(C, b"4") + gossip_field(C, b"5"))
        a = Entry(A, 1000, gossip_timestamp=1000, gossip_key=b"2")
        b = Entry(B, gossip_timestamp=1000, gossip_key=b"3")
        c = Entry(C, gossip_timestamp=1000, gossip_key=b"5")
        self.assertEqual(self.after([None] * 3, outer, payload), [a, b, c])
        self.refused(8, bytes(2 * SLOT), RECEIPT, outer, payload)
        self.assertEqual(self.after([Entry(C), None, None], outer, payload), [c, a, b])
        self.refused(8, table_of([Entry(C), Entry(D), None]), RECEIPT, outer, payload)
        self.assertEqual(self.after([Entry(C), Entry(D), None, Entry(A)], outer, payload),
                         [c, Entry(D), b, a])
        self.assertEqual(self.after([Entry(C), Entry(A), Entry(B)], outer, payload), [c, a, b])

    def test_fields_not_accepted_make_no_newcomer_G6_R8(self):
        outer = mail(A, 1000, b"To: " + B + b"\r\n")
        payload = gossip_field(C, b"c") + b"Autocrypt-Gossip: addr=" + B + b"; keydata=Zg\r\n"
        self.assertEqual(self.after([None], outer, payload), [Entry(A, 1000)])

    def test_no_8_for_old_gossip_R8(self):
        # An address with an entry is no newcomer, whatever its dates are.
        outer = mail(A, 1000, b"To: " + B + b"\r\n")
        heard = Entry(B, gossip_timestamp=2000, gossip_key=b"new")
        self.assertEqual(self.after([heard, None], outer, gossip_field(B, b"old")),
                         [heard, Entry(A, 1000)])

    def test_the_order_of_testing_U2_R31_R32(self):
        bad_table = slot_of(Entry(b"A@b"))
        report = b"Content-Type: multipart/report\r\n"
        full = slot_of(Entry(D))
        late = TIME_LIMIT + 1
        unreadable = b"From: a@b, c@d\r\n" + report + b"x\r\n"
        two = b"From: a@b, c@d\r\n" + report
        self.refused(1, b"", late, unreadable, b"x")
        self.refused(1, b"\xff" * 10, late, unreadable, b"x")
        self.refused(2, bad_table, late, unreadable, b"x")
        self.refused(3, full, late, unreadable, b"x")
        self.refused(4, full, RECEIPT, unreadable, b"x")
        self.refused(5, full, RECEIPT, two, b"x")
        self.refused(6, full, RECEIPT, mail(A, 1, report), b"x")
        self.refused(7, full, RECEIPT, mail(A, 1), b"x")
        self.refused(8, full, RECEIPT, mail(A, 1), b"")
        self.refused(1, b"", RECEIPT, b"")

    def test_an_index_comes_with_2_alone_R33(self):
        cases, numbers, indexes = Cases(33), Counter(), set()
        for _ in range(400):
            octets, *message = cases.processing()
            number, index, _ = process(octets, *message)
            self.assertEqual(index, check(octets)[1] if number == 2 else 0)
            numbers[number] += 1
            indexes.add(index)
        self.assertEqual(set(numbers), set(range(9)))
        self.assertGreater(len(indexes), 2)

    def test_3_to_7_are_tested_even_where_nothing_would_change_R35(self):
        held = table_of([Entry(A, 9000, 9000, b"k")])
        self.refused(3, held, TIME_LIMIT + 1, mail(A, 1))
        self.refused(7, held, RECEIPT, mail(A, 1), b"x")
        self.assertEqual(process(held, RECEIPT, mail(A, 1), b"", UNSET), (0, 0, held))


class Blocks(Case):
    """What lines and line endings mean to whoever reads a value: B3, B4 and B9."""

    def test_a_cr_of_its_own_B3(self):
        # A name, a list, a Date, key data, and a Subject.
        self.refused(4, bytes(SLOT), RECEIPT, mail(A, 1000, b"Sub\rject: x\r\n"))
        self.refused(5, bytes(SLOT), RECEIPT, b"From: " + A + b"\r\r\n")
        outer = mail(A, None, b"Date: " + date_text(1000) + b"\r\r\n")
        self.assertEqual(self.after([None], outer), [Entry(A, RECEIPT)])
        outer = mail(A, 1000, key_field(A, b"key").replace(b"\r\n", b"\r\r\n"))
        self.assertEqual(self.after([None], outer), [Entry(A, 1000)])
        outer = mail(A, 1000, b"Subject: a\rb\r\r\n", key_field(A, b"key"))
        self.assertEqual(self.after([None], outer), [Entry(A, 1000, 1000, b"key")])

    def test_a_cr_at_the_end_B4(self):
        self.refused(4, bytes(SLOT), RECEIPT, mail(A, 1000) + b"\r")
        self.refused(5, bytes(SLOT), RECEIPT, b"From: " + A + b"\r")

    def test_folds_inside_a_token_B9(self):
        self.refused(5, bytes(SLOT), RECEIPT, b"From: a@x\r\n .example\r\n")
        outer = mail(A, None, b"Date: 1 Jan 19\r\n 70 00:00:01 GMT\r\n")
        self.assertEqual(self.after([None], outer), [Entry(A, RECEIPT)])

    def test_folds_between_tokens_and_characters_B9_L19(self):
        outer = mail(A, None, b"Date: 1 Jan\r\n 1970\n\t00:00:09 GMT\r\n",
                     b"To: c@x.example,\r\n\tBob\r\n <b@x.example>\r\n",
                     b"Autocrypt: addr=a@x.example;\r\n keydata=Z\r\n m\n\t9v\r\n")
        self.assertEqual(self.after([None, None], outer, gossip_field(B, b"b")),
                         [Entry(A, 9, 9, b"foo"), Entry(B, gossip_timestamp=9, gossip_key=b"b")])


class Sender(Case):
    """Page U: what becomes of the sender's entry."""

    def test_a_new_sender_with_a_key_U5_U8(self):
        self.assertEqual(self.after([None, None], mail(A, 1000, key_field(A, b"key"))),
                         [Entry(A, 1000, 1000, b"key"), None])
        self.assertEqual(self.after([None], mail(A, 1000, key_field(A, b"key", True))),
                         [Entry(A, 1000, 1000, b"key", True)])

    def test_the_sender_is_stored_canonical_U3(self):
        self.assertEqual(self.after([None], mail(b"\"x\" <A@X.Example>", 1000, key_field(A, b"key"))),
                         [Entry(A, 1000, 1000, b"key")])

    def test_the_effective_date_D1_D2_D13(self):
        self.assertEqual(self.after([None], mail(A, 1000), receipt=999), [Entry(A, 999)])
        self.assertEqual(self.after([None], mail(A, 1000), receipt=1000), [Entry(A, 1000)])
        self.assertEqual(self.after([None], mail(A, None), receipt=999), [Entry(A, 999)])
        two = mail(A, 1000, b"Date: " + date_text(1000) + b"\r\n")
        self.assertEqual(self.after([None], two), [Entry(A, RECEIPT)])
        early = mail(A, None, b"Date: 1 Jan 1969 00:00 GMT\r\n")
        self.assertEqual(self.after([None], early), [Entry(A, 0)])

    def test_one_valid_field_counts_and_two_do_not_F13(self):
        """C13: it would be a mistake to take the first of two."""
        one, other = key_field(A, b"one"), key_field(A, b"other", True)
        for fields in (one + other, one + one, other + one + one):
            self.assertEqual(self.after([None], mail(A, 1000, fields)), [Entry(A, 1000)])
        self.assertEqual(self.after([None], mail(A, 1000, one + key_field(B, b"b"))),
                         [Entry(A, 1000, 1000, b"one")])
        self.assertEqual(self.after([None], mail(A, 1000, one + key_field(A, bytes(2049)))),
                         [Entry(A, 1000, 1000, b"one")])

    def test_type_1_spoils_the_field_F5_C16(self):
        line = b"Autocrypt: addr=a@x.example; type=1; prefer-encrypt=mutual; keydata=Zm9v\r\n"
        self.assertEqual(self.after([None], mail(A, 1000, line)), [Entry(A, 1000)])

    def test_a_keyless_mail_only_raises_last_seen_U7_U9(self):
        """C13: it would be a mistake to clear the key."""
        stored = Entry(A, 1000, 1000, b"key", True)
        for date, last_seen in [(2000, 2000), (1001, 1001), (1000, 1000)]:
            self.assertEqual(self.after([stored], mail(A, date)),
                             [Entry(A, last_seen, 1000, b"key", True)])
        stored = Entry(A, 3000, 1000, b"key", True)
        self.assertEqual(self.after([stored], mail(A, 2000)), [stored])

    def test_the_examples_U10(self):
        stored = Entry(A, 200, 100, b"K")
        for date, field, expected in [(99, key_field(A, b"N"), Entry(A, 200, 100, b"K")),
                                      (100, key_field(A, b"N"), Entry(A, 200, 100, b"N")),
                                      (150, key_field(A, b"N"), Entry(A, 200, 150, b"N")),
                                      (300, b"", Entry(A, 300, 100, b"K"))]:
            self.assertEqual(self.after([stored], mail(A, date, field)), [expected], date)

    def test_an_equal_date_replaces_U8(self):
        """C13: it would be a mistake to drop equal dates as old."""
        stored = Entry(A, 1000, 1000, b"old", True)
        self.assertEqual(self.after([stored], mail(A, 1000, key_field(A, b"new"))),
                         [Entry(A, 1000, 1000, b"new", False)])
        self.assertEqual(self.after([stored], mail(A, 1001, key_field(A, b"new"))),
                         [Entry(A, 1001, 1001, b"new", False)])

    def test_an_older_date_leaves_the_direct_half_and_last_seen_U6(self):
        stored = Entry(A, 5000, 1000, b"old", True)
        self.assertEqual(self.after([stored], mail(A, 999, key_field(A, b"new"))), [stored])
        self.assertEqual(self.after([stored], mail(A, 999)), [stored])

    def test_between_timestamp_and_last_seen_U7_U8(self):
        stored = Entry(A, 5000, 1000, b"old", True)
        self.assertEqual(self.after([stored], mail(A, 3000, key_field(A, b"new"))),
                         [Entry(A, 5000, 3000, b"new", False)])

    def test_without_a_direct_key_any_date_sets_it_U6(self):
        self.assertEqual(self.after([Entry(A, 5000)], mail(A, 3000, key_field(A, b"key", True))),
                         [Entry(A, 5000, 3000, b"key", True)])
        self.assertEqual(self.after([Entry(A)], mail(A, 0, key_field(A, b"key"))),
                         [Entry(A, 0, 0, b"key")])

    def test_zero_is_a_real_time_T6(self):
        stored = Entry(A, 0, 0, b"old")
        self.assertEqual(self.after([stored], mail(A, 0, key_field(A, b"new"))),
                         [Entry(A, 0, 0, b"new")])
        self.assertEqual(self.after([stored], mail(A, 1)), [Entry(A, 1, 0, b"old")])

    def test_a_shorter_key_leaves_no_old_octets_T8_C4(self):
        _, _, octets = process(slot_of(Entry(A, 1, 1, b"long key")), RECEIPT,
                               mail(A, 2, key_field(A, b"k")), b"", UNSET)
        self.assertEqual(octets, slot_of(Entry(A, 2, 2, b"k")))

    def test_the_gossip_half_stays_U8(self):
        stored = Entry(A, 1, 1, b"k", True, 9, b"g")
        self.assertEqual(self.after([stored], mail(A, 2, key_field(A, b"new"))),
                         [Entry(A, 2, 2, b"new", False, 9, b"g")])

    def test_other_entries_stay_U4(self):
        others = [Entry(B, 1, 1, b"k", True, 9, b"g"), None, Entry(C, 7)]
        self.assertEqual(self.after(others, mail(A, 2)), [others[0], Entry(A, 2), others[2]])

    def test_keys_of_the_largest_length_F10(self):
        self.assertEqual(self.after([None], mail(A, 1000, key_field(A, b"\x07" * 2048))),
                         [Entry(A, 1000, 1000, b"\x07" * 2048)])
        self.assertEqual(self.after([None], mail(A, 1000, key_field(A, b"\x07" * 2049))),
                         [Entry(A, 1000)])

    def test_autocrypt_in_the_payload_and_gossip_outside_are_not_read_B12(self):
        outer = mail(A, 1000, b"To: " + B + b"\r\n" + gossip_field(B, b"b"))
        self.assertEqual(self.after([None, None], outer, key_field(A, b"a")), [Entry(A, 1000), None])

    def test_no_message_makes_a_slot_without_a_bit_T10(self):
        cases, made = Cases(10), 0
        for _ in range(200):
            octets, *message = cases.processing()
            number, _, after = process(octets, *message)
            for before, now in zip(entries(octets) if number == 0 else [], entries(after)):
                if before is None and now is not None:
                    self.assertNotEqual(slot_of(now)[BITS_AT], 0)
                    made += 1
        self.assertGreater(made, 20)

    def test_a_written_field_arrives_C7_C9(self):
        for mutual, (last_seen, timestamp), kept in [(True, (900, 900), False), (False, (1000, 1000), False),
                                                     (True, (1001, 1001), True)]:
            number, field = write_autocrypt(b"A@X.example", b"written", mutual, 4000)
            self.assertEqual(number, 0)
            stored = Entry(A, last_seen, timestamp, b"stored", not mutual)
            held = self.after([None, stored], b"X: y\r\n" + mail(A, 1000) + field)
            self.assertEqual(held[1], stored if kept else Entry(A, 1000, 1000, b"written", mutual))
            octets = table_of(held)
            start, length = target_key(octets, A, False, False, 0)
            self.assertEqual(octets[start:start + length], b"stored" if kept else b"written")

    def test_the_lowest_free_slot_U4(self):
        held = [Entry(B), None, Entry(C), None]
        self.assertEqual(self.after(held, mail(A, 5)), [Entry(B), Entry(A, 5), Entry(C), None])


class Gossip(Case):
    """Page G: what becomes of the entries that gossip is about."""

    TO_B = b"To: Bob <b@x.example>\r\n"

    def test_a_newcomer_G1_G2_G7(self):
        self.assertEqual(self.after([None, None], mail(A, 1000, self.TO_B), gossip_field(B, b"b"), TAKE),
                         [Entry(A, 1000), Entry(B, gossip_timestamp=1000, gossip_key=b"b")])
        for gossip in (UNSET, SKIP, 3, 255):
            self.assertEqual(self.after([None, None], mail(A, 1000, self.TO_B), gossip_field(B, b"b"), gossip),
                             [Entry(A, 1000), None])

    def test_gossip_changes_no_direct_half_and_no_last_seen_G8(self):
        """C13: it would be a mistake to fill them."""
        stored = Entry(B, 500, 400, b"direct", True)
        field = b"Autocrypt-Gossip: addr=b@x.example; prefer-encrypt=mutual; keydata=Zm9v\r\n"
        self.assertEqual(self.after([stored, Entry(A)], mail(A, 1000, self.TO_B), field),
                         [Entry(B, 500, 400, b"direct", True, 1000, b"foo"), Entry(A, 1000)])
        # G7: its preference is ignored.
        self.assertEqual(self.after([Entry(B), Entry(A)], mail(A, 1000, self.TO_B), field),
                         [Entry(B, gossip_timestamp=1000, gossip_key=b"foo"), Entry(A, 1000)])

    def test_dates_equal_older_and_newer_G7(self):
        stored = Entry(B, gossip_timestamp=1000, gossip_key=b"old")
        for date, expected in [(999, stored),
                               (1000, Entry(B, gossip_timestamp=1000, gossip_key=b"new")),
                               (1001, Entry(B, gossip_timestamp=1001, gossip_key=b"new"))]:
            held = self.after([stored, Entry(A)], mail(A, date, self.TO_B), gossip_field(B, b"new"))
            self.assertEqual(held[0], expected)

    def test_one_date_for_the_whole_message_D14(self):
        outer = mail(A, 1000, key_field(A, b"a"), self.TO_B)
        for receipt, date in [(RECEIPT, 1000), (700, 700)]:
            self.assertEqual(self.after([None, None], outer, gossip_field(B, b"b"), receipt=receipt),
                             [Entry(A, date, date, b"a"), Entry(B, gossip_timestamp=date, gossip_key=b"b")])

    def test_written_gossip_arrives_C8_C9(self):
        for timestamp, kept in [(999, False), (1000, False), (1001, True)]:
            number, field = write_gossip(b"B@X.example", b"written", 4000)
            self.assertEqual(number, 0)
            stored = Entry(B, 5, gossip_timestamp=timestamp, gossip_key=b"stored")
            held = self.after([stored, None], mail(A, 1000, self.TO_B), b"X: y\r\n" + field)
            expected = stored if kept else Entry(B, 5, gossip_timestamp=1000, gossip_key=b"written")
            self.assertEqual(held, [expected, Entry(A, 1000)])
            octets = table_of(held)
            start, length = target_key(octets, B, False, False, 0)
            self.assertEqual(octets[start:start + length], b"stored" if kept else b"written")

    def test_to_cc_and_reply_to_G4(self):
        for name in (b"To", b"Cc", b"Reply-To", b"TO", b"cC", b"reply-to"):
            held = self.after([None, None], mail(A, 9, name + b": x@y, B@x.example\r\n"),
                              gossip_field(B, b"b"))
            self.assertEqual(held[1], Entry(B, gossip_timestamp=9, gossip_key=b"b"), name)

    def test_other_fields_are_not_looked_at_B12(self):
        for name in (b"Bcc", b"Sender", b"Resent-To", b"X-To", b"Delivered-To"):
            held = self.after([None, None], mail(A, 9, name + b": " + B + b"\r\n"),
                              gossip_field(B, b"b"))
            self.assertEqual(held, [Entry(A, 9), None], name)
        held = self.after([None, None], mail(A, 9), b"To: " + B + b"\r\n" + gossip_field(B, b"b"))
        self.assertEqual(held, [Entry(A, 9), None])

    def test_an_unreadable_field_hides_its_addresses_alone_G4_L16(self):
        gossip = gossip_field(B, b"b") + gossip_field(C, b"c")
        outer = mail(A, 9, b"To: b@x.example, \"q\"@y\r\nCc: c@x.example\r\n")
        self.assertEqual(self.after([None] * 3, outer, gossip),
                         [Entry(A, 9), Entry(C, gossip_timestamp=9, gossip_key=b"c"), None])
        outer = mail(A, 9, b"To: b@x.example,\r\nTo: c@x.example\r\nTo: b@x.example\r\n")
        self.assertEqual(self.after([None] * 3, outer, gossip),
                         [Entry(A, 9), Entry(B, gossip_timestamp=9, gossip_key=b"b"),
                          Entry(C, gossip_timestamp=9, gossip_key=b"c")])

    def test_an_empty_group_in_to_G4_L14(self):
        outer = mail(A, 9, b"To: undisclosed-recipients:;\r\n")
        self.assertEqual(self.after([None, None], outer, gossip_field(B, b"b")), [Entry(A, 9), None])

    def test_about_the_sender_G5(self):
        outer = mail(A, 1000, key_field(A, b"key"))
        self.assertEqual(self.after([None], outer, gossip_field(A, b"g")),
                         [Entry(A, 1000, 1000, b"key")])
        outer += b"Reply-To: " + A + b"\r\n"
        self.assertEqual(self.after([None], outer, gossip_field(A, b"g")),
                         [Entry(A, 1000, 1000, b"key", False, 1000, b"g")])

    def test_gossip_is_still_read_from_an_older_message_G8(self):
        stored = Entry(A, 5000, 5000, b"key", True)
        outer = mail(A, 1000, key_field(A, b"old"), b"To: " + A + b", " + B + b"\r\n")
        self.assertEqual(
            self.after([stored, None], outer, gossip_field(A, b"a") + gossip_field(B, b"b")),
            [Entry(A, 5000, 5000, b"key", True, 1000, b"a"),
             Entry(B, gossip_timestamp=1000, gossip_key=b"b")])

    def test_order_of_newcomers_and_last_field_U4_G10(self):
        outer = mail(A, 1000, b"To: b@x.example, c@x.example, d@x.example\r\n")
        payload = (gossip_field(D, b"1") + gossip_field(C, b"2") + gossip_field(B, b"3")
                   + gossip_field(D, b"4") + gossip_field(C, b"5"))
        self.assertEqual(
            self.after([None] * 4, outer, payload),
            [Entry(A, 1000), Entry(D, gossip_timestamp=1000, gossip_key=b"4"),
             Entry(C, gossip_timestamp=1000, gossip_key=b"5"),
             Entry(B, gossip_timestamp=1000, gossip_key=b"3")])

    def test_the_last_accepted_field_not_the_last_field_G9(self):
        payload = gossip_field(B, b"good") + b"Autocrypt-Gossip: addr=b@x.example; keydata=Zh==\r\n"
        self.assertEqual(self.after([None, None], mail(A, 5, self.TO_B), payload)[1],
                         Entry(B, gossip_timestamp=5, gossip_key=b"good"))

    def test_two_gossip_fields_are_not_two_valid_fields_G9(self):
        payload = gossip_field(B, b"one") + gossip_field(B, b"one")
        self.assertEqual(self.after([None, None], mail(A, 5, self.TO_B), payload)[1],
                         Entry(B, gossip_timestamp=5, gossip_key=b"one"))

    def test_the_sender_takes_the_first_slot_U4(self):
        held = self.after([None, Entry(C), None], mail(A, 5, self.TO_B), gossip_field(B, b"b"))
        self.assertEqual(held, [Entry(A, 5), Entry(C), Entry(B, gossip_timestamp=5, gossip_key=b"b")])

    def test_whole_or_not_at_all_U2_R8(self):
        """C13: it would be a mistake to store the sender before gossip turns out to have no slot."""
        stored = Entry(A, 1, 1, b"old")
        outer = mail(A, 1000, key_field(A, b"new"), self.TO_B)
        self.refused(8, slot_of(stored), RECEIPT, outer, gossip_field(B, b"b"))
        self.refused(8, bytes(SLOT), RECEIPT, outer, gossip_field(B, b"b"))

    def test_the_date_of_the_payload_is_not_looked_at_B12_D14(self):
        payload = b"Date: " + date_text(7) + b"\r\nFrom: x@y\r\n" + gossip_field(B, b"b")
        self.assertEqual(self.after([None, None], mail(A, 1000, self.TO_B), payload)[1],
                         Entry(B, gossip_timestamp=1000, gossip_key=b"b"))

    def test_the_name_of_the_field_in_any_case_B11(self):
        field = gossip_field(B, b"b").replace(b"Autocrypt-Gossip", b"AUTOCRYPT-gossip")
        self.assertEqual(self.after([None, None], mail(A, 5, self.TO_B), field)[1],
                         Entry(B, gossip_timestamp=5, gossip_key=b"b"))

    def test_behind_the_empty_line_nothing_is_read_B5(self):
        self.assertEqual(self.after([None, None], mail(A, 5, self.TO_B),
                                    b"Subject: x\r\n\r\n" + gossip_field(B, b"b")),
                         [Entry(A, 5), None])

    def test_more_recipients_than_100_L17(self):
        outer = mail(A, 5, b"To: " + b", ".join([b"x@y"] * 150 + [B]) + b"\r\n")
        self.assertEqual(self.after([None, None], outer, gossip_field(B, b"b"))[1],
                         Entry(B, gossip_timestamp=5, gossip_key=b"b"))

    def test_many_newcomers_U4_R8(self):
        names = [b"p%d@x" % place for place in range(255)]
        outer = mail(A, 5, b"To: " + b",".join(names) + b"\r\n")
        payload = b"".join(gossip_field(name, b"k") for name in reversed(names))
        expected = [Entry(A, 5)] + [Entry(name, gossip_timestamp=5, gossip_key=b"k")
                                    for name in reversed(names)]
        self.assertEqual(self.after([None] * 256, outer, payload), expected)
        self.refused(8, bytes(255 * SLOT), RECEIPT, outer, payload)


class Orders(Case):
    """C11: messages whose keys differ in date give the same entries in any order."""

    def test_three_messages_C11(self):
        messages = [
            (mail(A, 1000, key_field(A, b"one", True), b"To: " + B + b"\r\n"), gossip_field(B, b"b1")),
            (mail(A, 3000), b""),
            (mail(A, 2000, key_field(A, b"two"), b"Cc: " + B + b"\r\n"), gossip_field(B, b"b2")),
        ]
        expected = [Entry(A, 3000, 2000, b"two"), Entry(B, gossip_timestamp=2000, gossip_key=b"b2")]
        for order in itertools.permutations(messages):
            octets = bytes(2 * SLOT)
            for outer, payload in order:
                number, _, octets = process(octets, RECEIPT, outer, payload, TAKE)
                self.assertEqual(number, 0)
            self.assertEqual(entries(octets), expected)


class Accents(Case):
    """L8, L20 and L21 in whole messages: one person, however a mail spells the name."""

    FORM = "zoë.ё@x".encode()
    SPELLINGS = [text.encode() for text in ("zoë.ё@x", "Zoë.Ё@X", "ZOË.ё@x", "zOË.Ё@x")]
    # A near miss, and what is not well formed, though all else is alike.
    OTHERS = ["zoê.ё@x".encode(), "zoë.е@x".encode(), "zoÿ.ё@x".encode(), FORM.replace(b"@", b"\xff@"), b"zo\xeb@x"]

    def test_from_and_addr_L8_F12_U3(self):
        for sender, addr in itertools.product(self.SPELLINGS, repeat=2):
            expected = [Entry(self.FORM, 1000, 1000, b"k")]
            self.assertEqual(self.after([None], mail(sender, 1000, key_field(addr, b"k"))), expected)
            # T15: the entry that is there is the one that is updated.
            self.assertEqual(self.after([Entry(self.FORM, 9, 9, b"old", True)],
                                        mail(sender, 1000, key_field(addr, b"k"))), expected)
        for sender, addr in itertools.product(self.SPELLINGS, self.OTHERS):
            self.assertEqual(self.after([None], mail(sender, 1000, key_field(addr, b"k"))), [Entry(self.FORM, 1000)])

    def test_two_valid_fields_in_two_spellings_F13(self):
        fields = [key_field(addr, b"k") for addr in self.SPELLINGS[:2]]
        self.assertEqual(self.after([None], mail(self.FORM, 1000, *fields)), [Entry(self.FORM, 1000)])

    def test_gossip_and_recipients_L8_G5(self):
        told = Entry(self.FORM, gossip_timestamp=1000, gossip_key=b"g")
        for listed, addr in itertools.product(self.SPELLINGS, repeat=2):
            outer = mail(A, 1000, b"To: Zoe <" + listed + b">\r\n")
            self.assertEqual(self.after([None, None], outer, gossip_field(addr, b"g")), [Entry(A, 1000), told])
        for listed, addr in itertools.product(self.SPELLINGS, self.OTHERS):
            outer = mail(A, 1000, b"To: " + listed + b"\r\n")
            self.assertEqual(self.after([None, None], outer, gossip_field(addr, b"g")), [Entry(A, 1000), None])

    def test_each_person_needs_one_slot_L8_R8(self):
        to = b"To: " + b", ".join(self.SPELLINGS) + b"\r\n"
        payload = b"".join(gossip_field(addr, b"g%d" % place) for place, addr in enumerate(self.SPELLINGS))
        told = Entry(self.FORM, gossip_timestamp=1000, gossip_key=b"g3")
        self.assertEqual(self.after([None, None], mail(A, 1000, to), payload), [Entry(A, 1000), told])
        self.assertEqual(self.after([None], mail(self.SPELLINGS[1], 1000, to), payload),
                         [Entry(self.FORM, 1000, gossip_timestamp=1000, gossip_key=b"g3")])
        # Those that are not the same need slots of their own.
        to = b"To: " + b", ".join(self.OTHERS) + b"\r\n"
        payload = b"".join(gossip_field(addr, b"g") for addr in self.OTHERS)
        self.refused(8, bytes(len(self.OTHERS) * SLOT), RECEIPT, mail(self.FORM, 1000, to), payload)
        held = self.after([None] * (1 + len(self.OTHERS)), mail(self.FORM, 1000, to), payload)
        self.assertEqual([entry.address for entry in held], [self.FORM] + self.OTHERS)


if __name__ == "__main__":
    unittest.main()
