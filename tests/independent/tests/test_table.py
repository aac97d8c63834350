"""Page T, the table: length, free and sound slots, entries; and refusals 1, 2 and 12 of the calls on it."""

import datetime
import random
import unittest

from cases import Cases
from scope import table
from scope.table import (ADDRESS_AT, BITS_AT, DIRECT_KEY_AT, GOSSIP_KEY_AT, NUMBERS, SLOT, TIME_LIMIT, Entry,
                         address_of, check, check_by_old_rule, entries, entry_numbers, entry_of, find, free_slots,
                         is_sound_alone, slot_of, table_of)

FULL = Entry(b"a@b.example", 2000, 1000, b"direct", True, 3000, b"gossip key")
SENDER = Entry(b"a@b.example", 2000, 1000, b"direct")
SEEN = Entry(b"a@b.example", 2000)
HEARD = Entry(b"a@b.example", gossip_timestamp=3000, gossip_key=b"gossip key")
BARE = Entry(b"a@b.example")


# L8: spellings that were canonical while only ASCII capitals were made small, and are not any more; and some that still
# are, since L21 does not change them.
OLD = ["É@b".encode(), "Þ@b".encode(), "zoË@b".encode(), "Ω@b".encode(), "ж.Я@b".encode(), "Ђ@b".encode()]
NEAR = ["×@b".encode(), "÷@b".encode(), "ß@b".encode(), "ẞ@b".encode(), "Ÿ@b".encode(), "\u03a2@b".encode(),
        "Ά@b".encode(), "Ѡ@b".encode(), "Ā@b".encode(), "É".encode() + b"\xff@b", b"\xed\xa0\x80" + "Я@b".encode()]


def changed(slot: bytes, at: int, content: bytes) -> bytes:
    return slot[:at] + content + slot[at + len(content):]


def little(value: int, length: int) -> bytes:
    return value.to_bytes(length, "little")


class Layout(unittest.TestCase):
    """T1 to T7: what a slot holds, and where."""

    def test_a_full_slot_octet_by_octet_T2_T3(self):
        expected = (
            b"\x41\x31"                              # 0-1 mark
            + b"\x0b\x00"                            # 2-3 address length
            + b"\x0f"                                # 4 all four bits
            + b"\x00\x00\x00"                        # 5-7
            + b"\xd0\x07\x00\x00\x00\x00\x00\x00"    # 8-15 last seen 2000
            + b"\xe8\x03\x00\x00\x00\x00\x00\x00"    # 16-23 Autocrypt timestamp 1000
            + b"\xb8\x0b\x00\x00\x00\x00\x00\x00"    # 24-31 gossip timestamp 3000
            + b"\x06\x00"                            # 32-33 direct key length
            + b"\x0a\x00"                            # 34-35 gossip key length
            + b"\x00\x00\x00\x00"                    # 36-39
            + b"a@b.example" + bytes(256 - 11)       # 40-295 address
            + b"direct" + bytes(2048 - 6)            # 296-2343 direct key
            + b"gossip key" + bytes(2048 - 10))      # 2344-4391 gossip key
        self.assertEqual(len(expected), 4392)
        self.assertEqual(slot_of(FULL), expected)
        self.assertEqual(entry_of(expected), FULL)

    def test_slots_follow_one_another_T1(self):
        # Nothing stands in front of the slots, between them or behind them.
        slots = [slot_of(SENDER), bytes(SLOT), slot_of(Entry(b"c@d", 7))]
        self.assertEqual(table_of([SENDER, None, Entry(b"c@d", 7)]), b"".join(slots))
        self.assertEqual(entries(b"".join(slots)), [SENDER, None, Entry(b"c@d", 7)])
        self.assertEqual(check(b"\0" + b"".join(slots)), (1, 0))
        self.assertEqual(check(slots[0] + b"\0" + slots[2][:-1]), (2, 1))

    def test_the_bits_T5_T7(self):
        for entry, bits in [(BARE, 0), (SEEN, 1), (SENDER, 3), (FULL, 15), (HEARD, 4)]:
            self.assertEqual(slot_of(entry)[BITS_AT], bits)
            self.assertEqual(entry_of(slot_of(entry)), entry)

    def test_a_free_slot_T4(self):
        self.assertEqual(slot_of(None), bytes(4392))
        self.assertIsNone(entry_of(bytes(4392)))

    def test_the_largest_slot_T3(self):
        address = b"a" * 62 + b"@" + b".".join([b"b" * 63] * 3)
        entry = Entry(address, TIME_LIMIT, TIME_LIMIT, b"\xff" * 2048, True, TIME_LIMIT, b"\xfe" * 2048)
        self.assertEqual(len(address), 254)
        self.assertEqual(check(slot_of(entry)), (0, 0))
        self.assertEqual(entry_of(slot_of(entry)), entry)

    def test_the_largest_time_T6(self):
        last = datetime.datetime(9999, 12, 31, 23, 59, 59) - datetime.datetime(1970, 1, 1)
        self.assertEqual(last, datetime.timedelta(seconds=TIME_LIMIT))
        self.assertEqual(check(slot_of(Entry(b"a@b", TIME_LIMIT))), (0, 0))
        self.assertEqual(check(slot_of(Entry(b"a@b", TIME_LIMIT + 1))), (2, 0))

    def test_zero_is_a_real_time_T6(self):
        entry = Entry(b"a@b", 0, 0, b"k", False, 0, b"g")
        self.assertEqual(check(slot_of(entry)), (0, 0))
        self.assertEqual(entry_of(slot_of(entry)), entry)
        self.assertEqual(entry_of(slot_of(Entry(b"a@b", 0))).last_seen, 0)
        self.assertIsNone(entry_of(slot_of(Entry(b"a@b"))).last_seen)


class Length(unittest.TestCase):
    def test_1_to_256_whole_slots_T1_R1(self):
        for length in [0, 1, SLOT - 1, SLOT + 1, 2 * SLOT - 1, 255 * SLOT + 1, 256 * SLOT - 1,
                       256 * SLOT + 1, 257 * SLOT, 512 * SLOT, 300 * SLOT]:
            self.assertEqual(check(bytes(length)), (1, 0), length)
        for slots in [1, 2, 3, 14, 15, 255, 256]:
            self.assertEqual(check(bytes(slots * SLOT)), (0, 0), slots)

    def test_length_before_soundness_R31(self):
        self.assertEqual(check(b"\xff" * (SLOT - 1)), (1, 0))
        self.assertEqual(check(b"\xff" * (257 * SLOT)), (1, 0))


class Soundness(unittest.TestCase):
    """T4 and T8 to T12: slots that are free, sound or neither; each condition of T8 broken alone."""

    def sound(self, slot: bytes) -> None:
        self.assertEqual(len(slot), SLOT)
        self.assertEqual(check(slot), (0, 0))
        self.assertEqual(slot_of(entry_of(slot)), slot)

    def broken(self, slot: bytes) -> None:
        self.assertEqual(len(slot), SLOT)
        self.assertEqual(check(slot), (2, 0))

    def test_sound_slots_T8(self):
        for entry in [FULL, SENDER, SEEN, HEARD, BARE,
                      Entry(b"a@b", 5, gossip_timestamp=9, gossip_key=b"g"),
                      Entry(b"a@b", 5, 5, b"k"), Entry(b"a@b", 5, 5, b"k", True)]:
            self.sound(slot_of(entry))

    def test_no_bit_set_T10(self):
        self.assertEqual(slot_of(BARE)[BITS_AT], 0)
        self.sound(slot_of(BARE))

    def test_gossip_is_not_bound_to_last_seen_T11(self):
        self.sound(slot_of(HEARD))
        self.sound(slot_of(SEEN))
        self.sound(slot_of(Entry(b"a@b", 5, gossip_timestamp=9, gossip_key=b"g")))
        self.sound(slot_of(Entry(b"a@b", 9, gossip_timestamp=5, gossip_key=b"g")))
        # The direct half alone is.
        self.broken(slot_of(Entry(b"a@b", 5, 9, b"k")))

    def test_marks_T4(self):
        # T8.1: one mark alone is that of a used slot.
        for mark in range(65536):
            octets = mark.to_bytes(2, "big")
            if octets == b"\x41\x31":
                continue
            if mark % 257 == 0 or octets[0] == 0x41 or octets[1] == 0x31 or mark in (0, 0x3141, 0x4132):
                self.broken(changed(slot_of(BARE), 0, octets))
        self.broken(b"\x41\x31" + bytes(SLOT - 2))

    def test_all_octets_of_a_free_slot_are_zero_T4(self):
        for at in list(range(2, 45)) + [295, 296, 2343, 2344, 4391]:
            self.broken(changed(bytes(SLOT), at, b"\x01"))
            self.broken(changed(bytes(SLOT), at, b"\x80"))
        self.broken(changed(bytes(SLOT), 0, b"\x41"))
        self.broken(changed(bytes(SLOT), 1, b"\x31"))

    def test_the_address_is_canonical_T8_T12(self):
        # T8.2
        for text in [b"", b"a", b"A@b", b"a@B", b"a@b.", b"a @b", b"<a@b>", b"a@b@c",
                     b"a" * 65 + b"@b", b"a@" + b"b" * 64, b"a@\xc3\xa9", b"\x00@b", b"a@b\x00"] + OLD:
            self.broken(slot_of(Entry(text)))
        for text in [b"a@b", b"a" * 64 + b"@b", b"a@" + b"b" * 63, b"\xc3\xa9@b", b"\xff@b"] + NEAR:
            self.sound(slot_of(Entry(text)))
        # L22: behind the `@` it is in ASCII; what the labels decode to is not asked.
        for text in [b"a@\xc3\xa9", b"a@\xc3", b"a@b.\xc3\xa9", b"a@XN--9ca", b"a@xn--", "a@他".encode()]:
            self.broken(slot_of(Entry(text)))
        for text in [b"a@xn--9ca", b"a@xn--dca", b"a@xn----bga", b"a@xn--zzzzzzzz", b"a@xn--" + b"b" * 59]:
            self.sound(slot_of(Entry(text)))

    def test_the_address_length_T9(self):
        domain = b".".join([b"b" * 63] * 3)
        self.sound(slot_of(Entry(b"a" * 62 + b"@" + domain)))
        self.broken(slot_of(Entry(b"a" * 63 + b"@" + domain)))
        self.broken(slot_of(Entry(b"a" * 64 + b"@" + domain)))
        self.assertEqual(len(b"a" * 64 + b"@" + domain), 256)
        slot = slot_of(BARE)
        for length in [0, 10, 12, 254, 255, 256, 257, 0x0b00, 65535]:
            self.broken(changed(slot, 2, little(length, 2)))

    def test_bits_4_to_7_T8(self):
        # T8.4
        for entry in (FULL, BARE, SEEN):
            for bit in (16, 32, 64, 128):
                slot = slot_of(entry)
                self.broken(changed(slot, BITS_AT, bytes([slot[BITS_AT] | bit])))

    def test_octets_5_to_7_and_36_to_39_T8(self):
        # T8.4
        for entry in (FULL, BARE):
            for at in [5, 6, 7, 36, 37, 38, 39]:
                for octet in (b"\x01", b"\x80", b"\xff"):
                    self.broken(changed(slot_of(entry), at, octet))

    def test_times_are_in_range_T8(self):
        # T8.5
        far = Entry(b"a@b", TIME_LIMIT, TIME_LIMIT, b"k", True, TIME_LIMIT, b"g")
        self.sound(slot_of(far))
        for at in (8, 16, 24):
            slot = slot_of(far)
            self.broken(changed(slot, at, little(TIME_LIMIT + 1, 8)))
            self.broken(changed(slot, at, b"\xff" * 8))
        self.sound(changed(slot_of(SEEN), 8, little(TIME_LIMIT, 8)))
        self.broken(changed(slot_of(SEEN), 8, little(TIME_LIMIT + 1, 8)))

    def test_absent_times_are_zero_T8(self):
        # T8.7, and T8.5 for those above the largest time.
        for at in (8, 16, 24):
            for value in (1, 256, 1 << 56, TIME_LIMIT, TIME_LIMIT + 1):
                self.broken(changed(slot_of(BARE), at, little(value, 8)))
        self.broken(changed(slot_of(SENDER), 24, little(1, 8)))
        self.broken(changed(slot_of(HEARD), 16, little(1, 8)))
        self.broken(changed(slot_of(HEARD), 8, little(1, 8)))
        self.broken(changed(slot_of(SEEN), 16, little(1, 8)))

    def test_key_lengths_where_the_bit_is_set_T8(self):
        # T8.6
        for place, at, other in [("direct_key", 32, 296), ("gossip_key", 34, 2344)]:
            for length in (1, 2, 2047, 2048):
                entry = Entry(b"a@b", 2, 1, b"k", False, 1, b"g")
                setattr(entry, place, b"\x07" * length)
                self.sound(slot_of(entry))
            for length in (0, 2049, 4096, 65535):
                slot = changed(slot_of(FULL), at, little(length, 2))
                slot = changed(slot, other, bytes(2048))
                self.broken(slot)

    def test_absent_key_lengths_are_zero_T8(self):
        # T8.7
        for entry, at in [(BARE, 32), (BARE, 34), (SEEN, 32), (HEARD, 32), (SENDER, 34)]:
            for length in (1, 2, 2048, 2049):
                self.broken(changed(slot_of(entry), at, little(length, 2)))

    def test_behind_a_length_there_are_zeros_T8(self):
        # T8.8
        for at in [40 + 11, 40 + 12, 295, 296 + 6, 296 + 7, 2343, 2344 + 10, 2344 + 11, 4391]:
            self.broken(changed(slot_of(FULL), at, b"\x01"))
        # Keys may hold zeros, at their end too.
        self.sound(slot_of(Entry(b"a@b", 2, 1, b"\0", False, 1, b"\0\0")))
        self.sound(changed(slot_of(FULL), 296 + 5, b"\0"))

    def test_absent_keys_are_zero_T8(self):
        # T8.8
        for entry, at in [(BARE, 296), (BARE, 2343), (BARE, 2344), (BARE, 4391), (HEARD, 296),
                          (HEARD, 2343), (SENDER, 2344), (SENDER, 4391), (SEEN, 296), (SEEN, 2344)]:
            self.broken(changed(slot_of(entry), at, b"\x01"))

    def test_mutual_has_a_direct_half_beside_it_T8(self):
        # T8.9
        for entry in (BARE, SEEN, HEARD):
            slot = slot_of(entry)
            self.broken(changed(slot, BITS_AT, bytes([slot[BITS_AT] | 8])))

    def test_a_direct_half_has_last_seen_beside_it_T8(self):
        # T8.10
        slot = slot_of(Entry(b"a@b", 0, 0, b"k"))
        self.sound(slot)
        self.broken(changed(slot, BITS_AT, b"\x02"))
        self.broken(changed(slot, BITS_AT, b"\x0a"))

    def test_last_seen_is_not_below_the_timestamp_T8(self):
        # T8.10
        for last_seen, timestamp, good in [(1000, 1000, True), (999, 1000, False), (1001, 1000, True),
                                           (0, 1, False), (TIME_LIMIT, TIME_LIMIT, True),
                                           (255, 256, False), (256, 255, True)]:
            slot = slot_of(Entry(b"a@b", last_seen, timestamp, b"k"))
            if good:
                self.sound(slot)
            else:
                self.broken(slot)

    def test_bits_without_their_content_T7(self):
        # A key bit set on a slot that holds no key.
        for bit in (2, 4):
            slot = slot_of(SEEN)
            self.broken(changed(slot, BITS_AT, bytes([slot[BITS_AT] | bit])))
        # A key bit cleared on a slot that holds one.
        for bits in (13, 11, 7 - 2, 4, 0, 1, 3 + 8):
            self.broken(changed(slot_of(FULL), BITS_AT, bytes([bits])))
        # Mutual alone cleared is sound.
        self.sound(changed(slot_of(FULL), BITS_AT, b"\x07"))

    def test_every_octet_of_a_slot_matters_or_not_T3(self):
        """Which octets may change alone, one bit each, without breaking a full slot."""
        free = {4}
        free |= {8, 9, 10, 11, 12, 16, 17, 24, 25, 26, 27, 28}
        # A key may end in zeros, so a greater length may be sound.
        free |= {32, 33, 34, 35}
        free |= set(range(40, 51)) | set(range(296, 302)) | set(range(2344, 2354))
        slot = slot_of(FULL)
        for at in range(SLOT):
            if at not in free:
                for bit in (1, 128):
                    self.assertFalse(is_sound_alone(changed(slot, at, bytes([slot[at] ^ bit]))), at)


class Tables(unittest.TestCase):
    """T12, T13 and T15, and what refusal 2 answers."""

    def test_in_no_lower_slot_T8(self):
        # T8.3
        one, two, three = Entry(b"a@b"), Entry(b"c@d", 5), Entry(b"a@b", 7)
        self.assertEqual(check(table_of([one, two, three])), (2, 2))
        self.assertEqual(check(table_of([one, three])), (2, 1))
        self.assertEqual(check(table_of([None, one, None, three])), (2, 3))
        self.assertEqual(check(table_of([one, two, None])), (0, 0))
        self.assertEqual(check(table_of([Entry(b"a@b"), Entry(b"a@b.c"), Entry(b"aa@b")])), (0, 0))

    def test_two_spellings_T12(self):
        self.assertEqual(check(table_of([Entry(b"a@b"), Entry(b"A@b")])), (2, 1))

    def test_the_lowest_index_R2_T12(self):
        bad = slot_of(Entry(b"A@b"))
        good = slot_of(Entry(b"a@b"))
        self.assertEqual(check(good + bytes(SLOT) + bad + bad), (2, 2))
        self.assertEqual(check(bad + good + good), (2, 0))
        self.assertEqual(check(good + good + bad), (2, 1))
        # A lower slot that is itself broken has the lower index.
        broken = changed(good, 5, b"\x01")
        self.assertEqual(check(broken + good), (2, 0))
        self.assertEqual(check(good * 256), (2, 1))
        last = bytes(255 * SLOT) + bad
        self.assertEqual(check(last), (2, 255))

    def test_an_old_spelling_is_refused_R2_T20(self):
        for old in OLD:
            self.assertEqual(check(table_of([SENDER, None, Entry(old, 7), Entry(b"c@d")])), (2, 2))
            self.assertEqual(check(table_of([Entry(b"e@b"), Entry(old)])), (2, 1))
            self.assertEqual(entry_numbers(table_of([None, Entry(old, 7)]), 0, NUMBERS), (2, 1, None))

    def test_near_misses_stand_beside_one_another_T12(self):
        self.assertEqual(check(table_of([Entry(text) for text in NEAR])), (0, 0))

    def test_the_old_rule_T16_R2(self):
        """Another test of the address, and no other difference."""
        for text in OLD + NEAR + [b"a@b", "é@b".encode()]:
            self.assertEqual(check_by_old_rule(slot_of(Entry(text))), (0, 0), text)
        # T8.3: two spellings are two addresses, and one spelling twice is not sound.
        self.assertEqual(check_by_old_rule(table_of([Entry(text) for text in OLD + NEAR])), (0, 0))
        self.assertEqual(check_by_old_rule(table_of([Entry("é@b".encode()), None, Entry("É@b".encode())])), (0, 0))
        self.assertEqual(check_by_old_rule(table_of([Entry("É@b".encode()), None, Entry("É@b".encode())])), (2, 2))
        for text in [b"A@b", "É@B".encode(), "ÉA@b".encode(), b"a", b"a@b.", b"\xffA@b", "a@é".encode(),
                     b"a@" + b"b" * 64, b"a" * 63 + b"@" + b".".join([b"b" * 63] * 3), b"a@xn--", b"a@\xff"]:
            self.assertEqual(check_by_old_rule(table_of([SENDER, Entry(text)])), (2, 1), text)
        # R1
        for length in (0, 1, SLOT - 1, SLOT + 1, 257 * SLOT):
            self.assertEqual(check_by_old_rule(bytes(length)), (1, 0))

    def test_the_other_conditions_hold_by_the_old_rule_too_T16(self):
        cases = Cases(16)
        broken = 0
        for _ in range(2000):
            slot = cases.broken_slot()
            plain_small = address_of(slot).isascii()
            if plain_small:
                self.assertEqual(check_by_old_rule(slot), check(slot))
                broken += check(slot) == (2, 0)
        self.assertGreater(broken, 300)

    def test_zeros_T13(self):
        for slots in (1, 2, 256):
            self.assertEqual(check(bytes(slots * SLOT)), (0, 0))
            self.assertEqual(entries(bytes(slots * SLOT)), [None] * slots)

    def test_zeros_added_at_the_end_T13(self):
        held = [SENDER, None, Entry(b"c@d", 7)]
        for more in (1, 2, 253):
            longer = table_of(held) + bytes(more * SLOT)
            self.assertEqual(check(longer), (0, 0))
            self.assertEqual(entries(longer), held + [None] * more)
        self.assertEqual(check(table_of(held) + bytes(254 * SLOT)), (1, 0))
        self.assertEqual(check(table_of(held) + bytes(SLOT - 1)), (1, 0))

    def test_a_full_table_T1(self):
        held = [Entry(b"a%d@b" % place) for place in range(256)]
        self.assertEqual(check(table_of(held)), (0, 0))
        self.assertEqual(entries(table_of(held)), held)
        self.assertEqual(free_slots(held), [])
        self.assertEqual(find(held, b"A255@B"), 255)

    def test_finding_T15(self):
        held = [None, Entry(b"a@b"), None, Entry(b"c@d"), Entry("жé@b".encode()), Entry("É".encode() + b"\xff@b")]
        self.assertEqual(find(held, b"a@b"), 1)
        self.assertEqual(find(held, b"C@D"), 3)
        self.assertIsNone(find(held, b"e@f"))
        # L8: in every spelling, but not where only one of them is well formed.
        for spelling in ("жé@b", "Жé@b", "жÉ@b", "ЖÉ@B"):
            self.assertEqual(find(held, spelling.encode()), 4)
        self.assertEqual(find(held, "É".encode() + b"\xff@B"), 5)
        self.assertIsNone(find(held, "é".encode() + b"\xff@b"))
        self.assertIsNone(find(held, "Жê@b".encode()))
        self.assertEqual(free_slots(held), [0, 2])

    def test_finding_a_domain_in_another_script_T15_L22(self):
        held = [Entry(b"a@xn--9ca"), None, Entry(b"a@xn--dca")]
        for spelling, index in [("a@é", 0), ("A@É", 0), ("a@XN--9CA", 0), ("a@xn--DCA", 2), ("a@ê", None),
                                ("a@é-", None)]:
            self.assertEqual(find(held, spelling.encode()), index, spelling)

    def test_there_and_back_T3(self):
        source = random.Random(3)
        for _ in range(200):
            held: list[Entry | None] = []
            for place in range(source.randrange(1, 6)):
                if source.random() < 0.3:
                    held.append(None)
                    continue
                entry = Entry(b"p%d@x" % place)
                if source.random() < 0.7:
                    entry.last_seen = source.choice([0, 1, 5000, TIME_LIMIT])
                    if source.random() < 0.7:
                        entry.autocrypt_timestamp = source.randrange(entry.last_seen + 1)
                        entry.direct_key = source.randbytes(source.choice([1, 3, 2048]))
                        entry.mutual = source.random() < 0.5
                if source.random() < 0.5:
                    entry.gossip_timestamp = source.choice([0, 1, 5000, TIME_LIMIT])
                    entry.gossip_key = source.randbytes(source.choice([1, 3, 2048]))
                held.append(entry)
            octets = table_of(held)
            self.assertEqual(check(octets), (0, 0))
            self.assertEqual(entries(octets), held)


class OneSlot(unittest.TestCase):
    """T14: one slot told in eleven numbers, and its refusals 1, 2 and 12."""

    FREE = [0] * 11
    PAST = [2, 3, 255, 256, 1 << 32, (1 << 63) + 1, (1 << 64) - 1]

    def told(self, held: list[Entry | None], slot: int) -> list[int] | None:
        number, index, numbers = entry_numbers(table_of(held), slot, NUMBERS)
        self.assertEqual((number, index), (0, 0))
        return numbers

    def test_every_part_there_T14(self):
        self.assertEqual(self.told([FULL], 0), [1, 15, 2000, 1000, 3000, 40, 11, 296, 6, 2344, 10])
        self.assertEqual(self.told([None, None, FULL], 2),
                         [1, 15, 2000, 1000, 3000, 8824, 11, 9080, 6, 11128, 10])

    def test_absent_parts_T14(self):
        self.assertEqual(self.told([SENDER], 0), [1, 3, 2000, 1000, 0, 40, 11, 296, 6, 0, 0])
        self.assertEqual(self.told([SEEN], 0), [1, 1, 2000, 0, 0, 40, 11, 0, 0, 0, 0])
        self.assertEqual(self.told([HEARD], 0), [1, 4, 0, 0, 3000, 40, 11, 0, 0, 2344, 10])
        self.assertEqual(self.told([BARE], 0), [1, 0, 0, 0, 0, 40, 11, 0, 0, 0, 0])
        self.assertEqual(self.told([None, HEARD], 1), [1, 4, 0, 0, 3000, 4432, 11, 0, 0, 6736, 10])

    def test_a_present_zero_is_told_by_its_bit_T6_T14(self):
        self.assertEqual(self.told([Entry(b"a@b", 0)], 0), [1, 1, 0, 0, 0, 40, 3, 0, 0, 0, 0])
        self.assertEqual(self.told([Entry(b"a@b", 0, 0, b"k", False, 0, b"g")], 0),
                         [1, 7, 0, 0, 0, 40, 3, 296, 1, 2344, 1])

    def test_the_last_slot_of_the_longest_table_T14(self):
        entry = Entry(b"a" * 62 + b"@" + b".".join([b"b" * 63] * 3), TIME_LIMIT, TIME_LIMIT, b"k" * 2048, True,
                      TIME_LIMIT, b"g" * 2048)
        start = 255 * 4392
        self.assertEqual(self.told([None] * 255 + [entry], 255), [
            1, 15, TIME_LIMIT, TIME_LIMIT, TIME_LIMIT, start + 40, 254, start + 296, 2048, start + 2344, 2048])

    def test_free_slots_and_slots_past_the_end_T14(self):
        self.assertEqual(self.told([None, FULL], 0), self.FREE)
        for slot in self.PAST:
            self.assertEqual(self.told([None, FULL], slot), self.FREE, slot)

    def test_1_R1(self):
        for length in (0, 1, SLOT - 1, SLOT + 1, 256 * SLOT + 1, 257 * SLOT):
            for slot in [0] + self.PAST:
                self.assertEqual(entry_numbers(bytes(length), slot, 11), (1, 0, None))

    def test_2_with_the_lowest_index_R2(self):
        bad = slot_of(Entry(b"A@b"))
        for slot in [0, 1] + self.PAST:
            self.assertEqual(entry_numbers(bad + bad, slot, 11), (2, 0, None))
            self.assertEqual(entry_numbers(slot_of(FULL) + bytes(SLOT) + bad + bad, slot, 11), (2, 2, None))

    def test_12_R12(self):
        for held, slot in [([FULL], 0), ([None], 0), ([FULL], 1), ([FULL], (1 << 64) - 1)]:
            for room in range(11):
                self.assertEqual(entry_numbers(table_of(held), slot, room), (12, 0, None))
            # More than enough is told as enough is.
            for room in (12, 13, 1000):
                self.assertEqual(entry_numbers(table_of(held), slot, room), (0, 0, self.told(held, slot)))

    def test_the_order_of_the_refusals_T14_R31(self):
        bad = slot_of(Entry(b"A@b"))
        for room in (0, 10, 11):
            self.assertEqual(entry_numbers(bad[:-1], 0, room), (1, 0, None))
            self.assertEqual(entry_numbers(bytes(SLOT) + bad, 0, room), (2, 1, None))


class Limits(unittest.TestCase):
    def test_the_numbers_of_T1_T3_and_T6(self):
        self.assertEqual((table.SLOT, table.SLOTS_LIMIT), (4392, 256))
        self.assertEqual((table.KEY_LIMIT, table.TIME_LIMIT), (2048, 253402300799))
        self.assertEqual((ADDRESS_AT, DIRECT_KEY_AT, GOSSIP_KEY_AT),
                         ((40, 296), (296, 2344), (2344, 4392)))


if __name__ == "__main__":
    unittest.main()
