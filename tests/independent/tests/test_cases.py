"""The generator of cases reaches every answer of every call, by seed.

Where cases have to reach both sides of a limit, the test names its rule.
"""

import itertools
import pathlib
import sys
import types
import unittest
from collections import Counter

import scope
from cases import CAPITALS, NEAR_MISSES, PEERS, Cases
from scope import (address, base64, conversion, date, displaying, header, keyfield, linting, listing, processing,
                   punycode, recommending, table, tokens, utf8, writing)
from scope.processing import SKIP, TAKE, UNSET
from scope.table import SLOT

SEED = 20171107


class Determinism(unittest.TestCase):
    METHODS = ["base64_text", "comment_text", "quoted_text", "runs", "date_value", "dates",
               "header_block", "content_type", "address", "accented", "address_list", "recipients", "field_value",
               "key", "table", "broken_slot", "old_table", "listing_input", "message", "processing", "recommending",
               "target", "one_slot", "writing", "writing_gossip", "conversion", "international", "grown",
               "script_label", "coded_label", "limit_label", "bad_label", "someone", "displaying", "quick",
               "linting"]

    def drawn(self, seed: int) -> list:
        cases = Cases(seed)
        return [getattr(cases, name)() for name in self.METHODS for _ in range(5)]

    def test_the_same_seed_gives_the_same_cases(self):
        self.assertEqual(self.drawn(1), self.drawn(1))

    def test_another_seed_gives_other_cases(self):
        self.assertNotEqual(self.drawn(1), self.drawn(2))

    def test_mutation_changes_something_as_a_rule(self):
        cases = Cases(SEED)
        changed = sum(cases.mutate(b"abcdefgh") != b"abcdefgh" for _ in range(300))
        self.assertGreater(changed, 250)
        self.assertTrue(all(isinstance(cases.mutate(b""), bytes) for _ in range(50)))

    def test_octets_keep_to_their_length(self):
        cases = Cases(SEED)
        lengths = Counter(len(cases.octets(9)) for _ in range(500))
        self.assertEqual(set(lengths), set(range(10)))


class Readers(unittest.TestCase):
    """Both answers of every reader are common."""

    def both(self, answers: Counter, total: int) -> None:
        self.assertEqual(set(answers), {False, True})
        self.assertGreater(min(answers.values()), total // 10)

    def test_base64(self):
        cases = Cases(SEED)
        texts = [cases.base64_text() for _ in range(1500)]
        decoded = [base64.decode(text) for text in texts]
        self.both(Counter(octets is None for octets in decoded), 1500)
        lengths = {len(octets) for octets in decoded if octets is not None}
        self.assertLessEqual({0, 1, 2, 3, 2047, 2048, 2049}, lengths)

    def test_comments_and_quoted_strings(self):
        cases = Cases(SEED)
        self.both(Counter(tokens.skip(cases.comment_text(), 0) is None for _ in range(1000)), 1000)
        texts = [cases.comment_text() for _ in range(1500)]
        quoted = [text for text in texts if text[:1] == b'"']
        self.both(Counter(tokens.quoted(text, 0) is None for text in quoted), len(quoted))
        self.both(Counter(tokens.quoted(cases.quoted_text(), 0) is None for _ in range(1000)), 1000)

    def test_depths_on_both_sides_of_the_limit_L2(self):
        cases = Cases(SEED)
        depths = Counter()
        for _ in range(1500):
            text, deepest, depth, at = cases.comment_text(), 0, 0, 0
            while at < len(text):
                at += text[at] == ord("\\")
                if at < len(text):
                    depth += (text[at] == ord("(")) - (text[at] == ord(")"))
                deepest, at = max(deepest, depth), at + 1
            depths[deepest] += 1
        for depth in (0, 1, 2, 15, 16, 17):
            self.assertGreater(depths[depth], 10, depth)

    def test_runs(self):
        cases = Cases(SEED)
        texts = [cases.runs() for _ in range(500)]
        for end in (tokens.digits_end, tokens.letters_end, tokens.atom_end):
            self.both(Counter(end(text, 0) == 0 for text in texts), 500)

    def test_dates(self):
        cases = Cases(SEED)
        values = [cases.date_value() for _ in range(3000)]
        found = [date.seconds(value) for value in values]
        self.both(Counter(seconds is None for seconds in found), 3000)
        available = set(found)
        self.assertLessEqual({0, 1, 999, 1000, 1001, table.TIME_LIMIT}, available)
        self.assertGreater(max(available - {None}), table.TIME_LIMIT)
        effective = Counter()
        for _ in range(600):
            dates, receipt = cases.dates(), cases.moment()
            seconds = date.seconds(dates[0]) if len(dates) == 1 else None
            answer = date.effective(dates, receipt)
            effective[(seconds is not None, answer == receipt)] += 1
        self.assertEqual(set(effective), {(True, True), (True, False), (False, True)})

    def test_blocks(self):
        cases = Cases(SEED)
        blocks = [cases.header_block() for _ in range(3000)]
        self.both(Counter(header.fields(block) is None for block in blocks), 3000)
        self.assertLessEqual({65535, 65536, 65537}, {len(block) for block in blocks})

    def test_content_types(self):
        cases = Cases(SEED)
        self.both(Counter(header.is_report(cases.content_type()) for _ in range(500)), 500)

    def test_addresses(self):
        cases = Cases(SEED)
        drawn = [cases.address() for _ in range(3000)]
        self.both(Counter(address.is_plain(octets) for octets in drawn), 3000)
        self.assertLessEqual({253, 254, 255}, {len(octets) for octets in drawn})
        locals_ = {len(octets.split(b"@")[0]) for octets in drawn}
        self.assertLessEqual({0, 1, 63, 64, 65}, locals_)
        labels = {len(label) for octets in drawn for label in octets.split(b"@")[-1].split(b".")}
        self.assertLessEqual({0, 1, 62, 63, 64}, labels)

    def test_lists(self):
        cases = Cases(SEED)
        found = [address.addresses(cases.address_list()) for _ in range(3000)]
        self.both(Counter(one is None for one in found), 3000)
        self.assertLessEqual({0, 1, 2, 3, 4}, {len(one) for one in found if one is not None})
        found = [address.addresses(cases.recipients()) for _ in range(1000)]
        self.assertLessEqual({1, 2, 99, 100, 101}, {len(one) for one in found if one is not None})

    def test_fields(self):
        cases = Cases(SEED)
        fields = [keyfield.read(cases.field_value()) for _ in range(2000)]
        self.both(Counter(field is None for field in fields), 2000)
        good = [field for field in fields if field is not None]
        self.both(Counter(field.mutual for field in good), len(good))
        self.assertLessEqual({1, 2, 3, 2047, 2048}, {len(field.key) for field in good})
        counted = Counter()
        for _ in range(600):
            sender = cases.peer()
            values = cases.field_values(sender)
            valid = sum(1 for field in map(keyfield.read, values)
                        if field is not None and field.address == address.canonical(sender))
            counted[min(valid, 2), keyfield.counted(values, sender) is not None] += 1
        self.assertEqual(set(counted), {(0, False), (1, True), (2, False)})

    def test_tables(self):
        cases = Cases(SEED)
        tables = [cases.table() for _ in range(1500)]
        answers = Counter(table.check(octets) for octets in tables)
        self.assertEqual({number for number, _ in answers}, {0, 1, 2})
        self.assertGreater(len({index for number, index in answers if number == 2}), 4)
        sizes = {len(octets) // SLOT for octets in tables if table.check(octets)[0] == 0}
        self.assertLessEqual({1, 2, 3, 14, 255, 256}, sizes)
        self.assertTrue(any(len(octets) == 257 * SLOT for octets in tables))
        self.both(Counter(table.check(cases.broken_slot()) == (0, 0) for _ in range(800)), 800)


class Calls(unittest.TestCase):
    """Every number and every advice comes up."""

    def test_processing(self):
        cases = Cases(SEED)
        numbers, events = Counter(), Counter()
        for _ in range(2000):
            octets, receipt, outer, payload, gossip = cases.processing()
            number, index, after = processing.process(octets, receipt, outer, payload, gossip)
            numbers[number] += 1
            # R32: a refusal leaves the table. C4: a sound table stays sound.
            if number != 0:
                self.assertEqual(after, octets)
                continue
            self.assertEqual(index, 0)
            self.assertEqual(table.check(after), (0, 0))
            for before, now in zip(table.entries(octets), table.entries(after)):
                events["newcomer"] += before is None and now is not None
                if before is None or now is None:
                    continue
                events["untouched"] += before == now
                events["last seen raised"] += (before.last_seen is not None
                                               and now.last_seen > before.last_seen)
                events["direct key new"] += before.direct_key is None and now.direct_key is not None
                events["direct key replaced"] += (before.direct_key is not None
                                                  and before.direct_key != now.direct_key)
                events["replaced at an equal date"] += (
                    before.direct_key is not None and before.direct_key != now.direct_key
                    and before.autocrypt_timestamp == now.autocrypt_timestamp)
                events["preference cleared"] += before.mutual and not now.mutual
                events["gossip new"] += before.gossip_key is None and now.gossip_key is not None
                events["gossip replaced"] += (before.gossip_key is not None
                                              and before.gossip_key != now.gossip_key)
                events["gossip at an equal date"] += (
                    before.gossip_key is not None and before.gossip_key != now.gossip_key
                    and before.gossip_timestamp == now.gossip_timestamp)
        self.assertEqual(set(numbers), set(range(9)))
        self.assertGreater(min(numbers.values()), 20)
        self.assertGreater(numbers[0], 300)
        for event in ("newcomer", "untouched", "last seen raised", "direct key new",
                      "direct key replaced", "replaced at an equal date", "preference cleared",
                      "gossip new", "gossip replaced", "gossip at an equal date"):
            self.assertGreater(events[event], 3, event)

    def test_gossip_settings(self):
        """G1, G2: take in about half of the messages, and payloads of every kind with every kind of setting."""
        cases = Cases(SEED)
        kinds = Counter()
        for _ in range(4800):
            _, _, payload, gossip = cases.message()
            setting = {UNSET: "unset", TAKE: "take", SKIP: "skip"}.get(gossip, "other")
            if len(payload) > header.BLOCK_LIMIT:
                kinds[setting, "too long"] += 1
            elif header.fields(payload) is None:
                kinds[setting, "unreadable"] += 1
            else:
                kinds[setting, "readable" if payload else "none"] += 1
        self.assertEqual(len(kinds), 16)
        self.assertGreater(min(kinds.values()), 3)
        taken = sum(many for (setting, _), many in kinds.items() if setting == "take")
        self.assertTrue(0.45 < taken / 4800 < 0.55, taken)

    def test_recommending(self):
        cases = Cases(SEED)
        answers = Counter()
        for _ in range(1500):
            number, _, advice = recommending.recommend(*cases.recommending())
            answers[number, advice] += 1
        self.assertEqual(set(answers), {(1, 0), (2, 0), (10, 0), (0, 1), (0, 2), (0, 3), (0, 4)})
        self.assertGreater(min(answers.values()), 20)

    def test_quick(self):
        """A13, A14: the first disable stands everywhere, and faults with and without a disable in front of them."""
        cases = Cases(SEED)
        kinds, lengths = Counter(), Counter()
        for _ in range(2500):
            octets, recipients, mutual, reply = cases.quick()
            number = recommending.recommend(octets, recipients, mutual, reply)[0]
            found = address.addresses(recipients)
            if number in (1, 2):
                kinds[number] += 1
            elif not found:
                kinds["no list", disable_in_front(octets, recipients)] += 1
            elif number == 10:
                kinds[len(found), without_key(octets, found) != []] += 1
            else:
                lengths[len(found)] += 1
                kinds.update(kinds_of(octets, recipients, found))
        refused = {1, 2, ("no list", True), ("no list", False), (101, True), (101, False)}
        places = {"first", "middle", "last", "nowhere", "only", "one with a key", "one without"}
        grouped = {(kind, place) for kind in ("group", "empty group") for place in places}
        self.assertEqual(set(kinds), refused | places | grouped)
        self.assertGreater(min(kinds.values()), 5, kinds)
        self.assertGreater(min(lengths[length] for length in (1, 2, 3, 4, 6, 99, 100)), 20, lengths)

    def test_target_keys(self):
        cases = Cases(SEED)
        answers = Counter()
        for _ in range(1500):
            octets, recipients, mutual, reply, place = cases.target()
            start, length = recommending.target_key(octets, recipients, mutual, reply, place)
            refused = recommending.recommend(octets, recipients, mutual, reply)[0] != 0
            kind = {296: "direct", 2344: "gossip", 0: "empty"}[start % SLOT]
            self.assertEqual(length == 0, kind == "empty")
            answers[kind, refused] += 1
        self.assertEqual(set(answers), {("direct", False), ("gossip", False), ("empty", False),
                                        ("empty", True)})
        self.assertGreater(min(answers.values()), 20)

    def test_one_slot(self):
        cases = Cases(SEED)
        answers, keys, rooms = Counter(), Counter(), set()
        for _ in range(1500):
            octets, slot, room = cases.one_slot()
            number, _, numbers = table.entry_numbers(octets, slot, room)
            rooms.add(room)
            if number != 0:
                answers[number] += 1
            elif slot >= len(octets) // SLOT:
                answers["past the end"] += 1
            else:
                answers["used" if numbers[0] else "free"] += 1
                keys[numbers[1] & (table.DIRECT + table.GOSSIP)] += numbers[0]
        self.assertEqual(set(answers), {1, 2, 12, "past the end", "free", "used"})
        self.assertGreater(min(answers.values()), 20)
        self.assertGreater(min(keys[bits] for bits in (0, 2, 4, 6)), 20)
        self.assertEqual(rooms, set(range(14)))

    def test_writing(self):
        cases = Cases(SEED)
        for answers in (Counter(writing.write_autocrypt(*cases.writing())[0] for _ in range(600)),
                        Counter(writing.write_gossip(*cases.writing_gossip())[0] for _ in range(600))):
            self.assertEqual(set(answers), {0, 9, 11, 12})
            self.assertGreater(min(answers.values()), 20)
        room = Counter()
        for _ in range(600):
            *arguments, length = cases.writing()
            number, field = writing.write_autocrypt(*arguments, 1 << 20)
            if number == 0:
                room[length - len(field)] += 1
        for spare in (-1, 0, 1):
            self.assertGreater(room[spare], 3)

    def test_displaying(self):
        cases = Cases(SEED)
        answers, rooms = Counter(), Counter()
        for _ in range(2500):
            octets, room = cases.displaying()
            number, text = displaying.display(octets, room)
            if number != 0:
                answers[number] += 1
                continue
            answers["decoded" if text != address.canonical(octets) else "as the form"] += 1
            rooms[min(room - len(text), 2)] += 1
        self.assertEqual(set(answers), {9, 12, "decoded", "as the form"})
        self.assertGreater(min(answers.values()), 200, answers)
        self.assertGreater(min(rooms[spare] for spare in (0, 1, 2)), 20, rooms)

    def test_listing(self):
        cases = Cases(SEED)
        inputs = [cases.listing_input() for _ in range(600)]
        printed = [listing.listing(octets) for octets in inputs]
        answers = Counter(text if text.startswith(b"refused") or text == b"" else b"lines"
                          for text in printed)
        self.assertEqual(set(answers), {b"", b"lines", b"refused 1\n", b"refused 2\n"})
        sizes = {len(octets) // SLOT for octets, text in zip(inputs, printed) if text[:2] != b"re"}
        self.assertLessEqual({1, 13, 14}, sizes)
        self.assertTrue(any(len(octets) == 15 * SLOT for octets in inputs))
        words = {word for text in printed for word in text.split()}
        self.assertLessEqual({b"mutual", b"none", b"-", b"0", b"2048"}, words)


def without_key(octets: bytes, found: list[bytes]) -> list[int]:
    """The places, from 1, of those in a list who have disable by a sound table."""
    held = table.entries(octets)
    return [place for place, name in enumerate(found, 1)
            if recommending.advice_for(recommending.entry_for(held, name), False, False) == recommending.DISABLE]


def disable_in_front(octets: bytes, recipients: bytes) -> bool:
    """Is there a readable list, with a disable, in front of what makes a list unreadable?"""
    for end in range(len(recipients), 0, -1):
        found = address.addresses(recipients[:end])
        if found:
            return without_key(octets, found) != []
    return False


def kinds_of(octets: bytes, recipients: bytes, found: list[bytes]) -> list:
    """Where the first disable of a list stands (A13), and which groups are in the list."""
    places = without_key(octets, found)
    if len(found) == 1:
        place = "one without" if places else "one with a key"
    elif not places:
        place = "nowhere"
    elif len(places) == len(found):
        place = "only"
    else:
        place = {1: "first", len(found): "last"}.get(places[0], "middle")
    signs = signs_of(recipients)
    kinds = [kind for kind, sign in (("group", b":"), ("empty group", b":;")) if sign in signs]
    return [place] + [(kind, place) for kind in kinds]


def signs_of(text: bytes) -> bytes:
    """A readable list without its blanks, comments and quoted strings."""
    signs, at = b"", 0
    while at < len(text):
        end = tokens.quoted(text, at) if text[at:at + 1] == b'"' else tokens.skip(text, at)
        signs += text[at:at + 1] if end == at else b""
        at = max(end, at + 1)
    return signs


def sort_of(octets: bytes) -> str:
    """Which sort of spelling an address is, as the rules of names and domains tell them apart (L8, L20 to L22)."""
    local, domain = octets.split(b"@")
    if not domain.isascii():
        return "another script"
    if b"xn--" in domain.lower():
        return "coded"
    points = utf8.points(local)
    if points is None:
        return "ill formed"
    if set(points) & set(NEAR_MISSES.values()) - set(CAPITALS) and address.canonical(octets) not in PEERS:
        return "near miss"
    if address.small_ascii(octets) != address.canonical(octets):
        return "equal by the longer map"
    return "ASCII" if octets.isascii() else "accents"


SORTS = {"ill formed", "near miss", "equal by the longer map", "ASCII", "accents", "another script", "coded"}


class Spellings(unittest.TestCase):
    """L8, L20, L21: each sort of spelling stands wherever an address may stand, and ASCII mail is still the most."""

    def drawn(self, sorts: Counter, least: int) -> None:
        self.assertEqual(set(sorts), SORTS)
        self.assertGreater(min(sorts.values()), least, sorts)
        self.assertGreater(sorts["ASCII"] / sum(sorts.values()), 0.4, sorts)

    def messages(self, many: int) -> list[tuple[list, list]]:
        """The fields of readable messages, of the outer block and of the payload."""
        cases = Cases(SEED)
        found = []
        for _ in range(many):
            _, outer, payload, _ = cases.message()
            outer_fields, payload_fields = header.fields(outer), header.fields(payload)
            if outer_fields is not None and payload_fields is not None:
                found.append((outer_fields, payload_fields))
        return found

    def test_peers_L8(self):
        for peer in PEERS:
            self.assertTrue(address.is_canonical(peer), peer)

    def test_peers_are_near_but_not_the_same_L8(self):
        cases = Cases(SEED)
        for _ in range(2000):
            peer = cases.one(PEERS)
            spelling, near, faulty = cases.spelled(peer), cases.near_miss(peer), cases.faulty(peer)
            self.assertEqual(address.canonical(spelling), peer)
            self.assertNotEqual(address.canonical(near), peer)
            self.assertTrue(address.is_plain(near), near)
            self.assertIsNone(utf8.points(faulty.split(b"@")[0]), faulty)
            self.assertTrue(address.is_plain(faulty), faulty)

    def test_from_and_lists(self):
        senders, listed = Counter(), Counter()
        for outer, _ in self.messages(3000):
            for name, value in outer:
                found = address.addresses(value) or []
                if header.same_name(name, b"From"):
                    senders.update(map(sort_of, found))
                elif any(header.same_name(name, other) for other in (b"To", b"Cc", b"Reply-To")):
                    listed.update(map(sort_of, found))
        self.drawn(senders, 40)
        self.drawn(listed, 60)

    def test_recipients(self):
        cases = Cases(SEED)
        sorts = Counter()
        for _ in range(1500):
            sorts.update(map(sort_of, address.addresses(cases.recipients()) or []))
        self.drawn(sorts, 60)

    def test_addr_and_gossip(self):
        own, told = Counter(), Counter()
        for outer, payload in self.messages(3000):
            for fields, name, sorts in ((outer, b"Autocrypt", own), (payload, b"Autocrypt-Gossip", told)):
                for value in header.values_of(fields, name):
                    pieces = [piece.split(b"=", 1) for piece in value.split(b";") if b"=" in piece]
                    sorts.update(sort_of(addr.strip()) for word, addr in pieces
                                 if word.strip() == b"addr" and address.is_plain(addr.strip()))
        self.drawn(own, 40)
        self.drawn(told, 40)

    def test_two_spellings_in_one_message(self):
        """Fields that count, and gossip that is accepted, by the longer map alone; and such as are nearly so."""
        met = Counter()
        for outer, payload in self.messages(3000):
            sender = processing.sender_of(outer)
            if sender is None:
                continue
            spelled = address.addresses(header.values_of(outer, b"From")[0])[0]
            for value in header.values_of(outer, b"Autocrypt"):
                addr = self.addr(value)
                if addr is not None and address.small_ascii(addr) != address.small_ascii(spelled):
                    met["addr", address.canonical(addr) == sender] += 1
            listed = [one for name in (b"To", b"Cc", b"Reply-To") for value in header.values_of(outer, name)
                      for one in address.addresses(value) or []]
            for value in header.values_of(payload, b"Autocrypt-Gossip"):
                addr = self.addr(value)
                if addr is not None and address.small_ascii(addr) not in map(address.small_ascii, listed):
                    met["gossip", address.canonical(addr) in map(address.canonical, listed)] += 1
        self.assertEqual(set(met), {("addr", True), ("addr", False), ("gossip", True), ("gossip", False)})
        self.assertGreater(min(met.values()), 40, met)

    def addr(self, value: bytes) -> bytes | None:
        """The address of a field that is valid in form, as it is spelled there."""
        if keyfield.read(value) is None:
            return None
        return next(addr.strip() for word, _, addr in (piece.partition(b"=") for piece in value.split(b";"))
                    if word.strip() == b"addr")

    def test_slots(self):
        """The slots of sound tables are canonical, and those of tables that were not converted need not be."""
        cases = Cases(SEED)
        sound, old, broken = Counter(), Counter(), Counter()
        for _ in range(1500):
            for sorts, octets in ((sound, cases.sound_table()), (old, cases.old_table())):
                sorts.update(sort_of(entry.address) for entry in table.entries(octets) if entry is not None)
            octets = cases.table()
            if table.check(octets)[0] == 2:
                slot = table.slots(octets)[table.check(octets)[1]]
                broken[address.is_old_canonical(table.address_of(slot)), table.check_by_old_rule(octets)[0]] += 1
        self.assertEqual(set(sound), SORTS - {"equal by the longer map", "another script"})
        self.assertEqual(set(old), SORTS - {"near miss", "another script"})
        self.assertGreater(min(sound.values()), 40, sound)
        self.assertGreater(min(old.values()), 40, old)
        # T20: tables that the old rule alone has for sound.
        self.assertGreater(broken[True, 0], 20, broken)

    def test_arguments(self):
        cases = Cases(SEED)
        drawn = [cases.address() for _ in range(3000)]
        sorts = Counter(sort_of(octets) for octets in drawn if address.is_plain(octets))
        self.assertEqual(set(sorts), SORTS)
        self.assertGreater(min(sorts.values()), 60, sorts)
        accented = [cases.accented() for _ in range(1500)]
        self.assertTrue(all(address.is_plain(octets) for octets in accented))
        points = {point for octets in accented for point in utf8.points(octets.split(b"@")[0]) or []}
        self.assertLessEqual({0xC0, 0xD7, 0xDE, 0xDF, 0x390, 0x391, 0x3A2, 0x3AB, 0x3AC, 0x3FF, 0x400, 0x40F, 0x410,
                              0x42F, 0x430, 0x178, 0x386, 0x460, 0x1E9E, 0xD7FF, 0xE000, 0x10FFFF}, points)


def decoded_to(label: bytes) -> str:
    """What becomes of the form of a label where an address is shown (L23, W12)."""
    form = address.label_form(label)
    if not form.startswith(b"xn--"):
        return "no code"
    points = punycode.decode(form[4:])
    if points is None:
        return "nothing"
    if displaying.shown_label(form) != form:
        return "shown"
    if points[0] == ord("-") or points[-1] == ord("-"):
        return "a hyphen at an end"
    return "a capital" if any(utf8.small(point) != point for point in points) else "other"


def without_form(label: bytes) -> str:
    """Why a label is none (L7, L20, L22)."""
    if label[:1] == b"-" or label[-1:] == b"-" or label == b"":
        return "hyphens, or nothing"
    form = address.label_form(label)
    if form is None:
        return "ill formed"
    return "too long" if len(form) > 63 else "other signs"


class Domains(unittest.TestCase):
    """L6, L7, L22, L23, W12: each sort of label is met, and both sides of each limit."""

    def test_labels(self):
        cases = Cases(SEED)
        codes, faults, lengths, beyond = Counter(), Counter(), Counter(), Counter()
        for _ in range(4000):
            octets = cases.international()
            for label in octets.split(b"@", 1)[1].split(b"."):
                if not address.is_label(label):
                    faults[without_form(label)] += 1
                    continue
                codes[decoded_to(label)] += 1
                lengths[len(address.label_form(label))] += 1
                beyond[label.isascii(), label.lower().startswith(b"xn--")] += 1
        self.assertEqual(set(codes), {"no code", "nothing", "shown", "a hyphen at an end", "a capital"})
        self.assertGreater(min(codes.values()), 40, codes)
        self.assertEqual(set(faults), {"hyphens, or nothing", "ill formed", "too long", "other signs"})
        self.assertGreater(min(faults.values()), 40, faults)
        self.assertGreater(min(lengths[length] for length in (5, 7, 62, 63)), 10, lengths)
        # L22: labels beyond ASCII that open with `xn--` themselves are seldom, but there.
        self.assertGreater(beyond[False, False], 1000)
        self.assertGreater(beyond[True, True], 1000)

    def test_labels_at_the_limit_L7(self):
        cases = Cases(SEED)
        lengths = Counter(len(address.label_form(cases.limit_label())) for _ in range(600))
        self.assertGreater(min(lengths[length] for length in (62, 63, 64)), 60, lengths)

    def test_addresses_at_the_limit_L6(self):
        cases = Cases(SEED)
        lengths, changed = Counter(), Counter()
        for _ in range(800):
            octets = cases.grown()
            local, domain = octets.split(b"@")
            form = local + b"@" + b".".join(address.label_form(label) for label in domain.split(b"."))
            lengths[len(form)] += 1
            changed[(len(form) > len(octets)) - (len(form) < len(octets))] += 1
        self.assertGreater(min(lengths[length] for length in (253, 254, 255)), 60, lengths)
        self.assertGreater(min(changed[one] for one in (-1, 0, 1)), 60, changed)

    def test_what_code_points_are_met_L22(self):
        cases = Cases(SEED)
        points = {point for _ in range(3000) for point in utf8.points(cases.script_label())}
        self.assertLessEqual({0x80, 0x3002, 0xFFFE, 0x10FFFF, 0xD7FF, 0xE000, 0xC9, 0xE9, 0x4ED6, 0x2D}, points)

    def test_another_spelling_is_the_same_address_L22(self):
        cases = Cases(SEED)
        changed = Counter()
        for _ in range(3000):
            octets = cases.international()
            other = cases.spelled(octets)
            if address.is_plain(octets):
                self.assertEqual(address.canonical(other), address.canonical(octets), octets)
                coded = octets.split(b"@")[1].isascii(), other.split(b"@")[1].isascii()
                changed[coded] += 1
        self.assertEqual(len(changed), 4)
        self.assertGreater(min(changed.values()), 100, changed)

    def test_both_spellings_in_one_message_L22(self):
        """Fields that count, and gossip that is accepted, where the domain is coded in one place alone."""
        met = Counter()
        cases = Cases(SEED)
        for _ in range(3000):
            _, outer, payload, _ = cases.message()
            outer, payload = header.fields(outer), header.fields(payload)
            sender = None if outer is None else processing.sender_of(outer)
            if sender is None or payload is None:
                continue
            spelled = address.addresses(header.values_of(outer, b"From")[0])[0]
            field = keyfield.counted(header.values_of(outer, b"Autocrypt"), sender)
            values = b";".join(header.values_of(outer, b"Autocrypt"))
            if field is not None and not spelled.split(b"@")[1].isascii():
                met["addr coded" if b"xn--" in values.lower() else "both typed"] += 1
            for field in processing.accepted_gossip(outer, payload):
                met["gossip about a domain"] += b"xn--" in field.address
        self.assertGreater(min(met[kind] for kind in ("addr coded", "both typed")), 10, met)
        self.assertGreater(met["gossip about a domain"], 100, met)

    def test_stored_domains_T8(self):
        # T8.2: as they are typed, they make a slot broken, by the old rule too.
        cases = Cases(SEED)
        met = Counter()
        for _ in range(3000):
            slot = cases.broken_slot()
            domain = table.address_of(slot).partition(b"@")[2]
            if b"xn--" in domain or not domain.isascii():
                met[domain.isascii(), table.check(slot)[0], table.check_by_old_rule(slot)[0]] += 1
        self.assertGreater(met[False, 2, 2], 40, met)
        self.assertGreater(met[True, 0, 0], 40, met)
        self.assertEqual(met[False, 0, 0] + met[False, 2, 0], 0, met)


class Conversions(unittest.TestCase):
    """T16 to T19: what `convert` is given."""

    def test_tables(self):
        cases = Cases(SEED)
        answers, indexes, sizes, events = Counter(), set(), set(), Counter()
        for _ in range(3000):
            octets = cases.conversion()
            number, index, after = conversion.convert(octets)
            answers[number if number or after != octets else "as it was"] += 1
            if number != 0:
                indexes.add(index)
                continue
            held = table.entries(octets)
            sizes.add(len(held))
            forms = [None if entry is None else address.canonical(entry.address) for entry in held]
            for form in set(forms) - {None}:
                group = [entry for entry, other in zip(held, forms) if other == form]
                if len(group) > 1:
                    self.group(events, form, group)
                events["gap inside a group"] += None in forms[forms.index(form):len(forms) - forms[::-1].index(form)]
        self.assertEqual(set(answers), {0, 1, 2, "as it was"})
        self.assertGreater(min(answers.values()), 100, answers)
        self.assertGreater(answers[0], 1500, answers)
        self.assertLessEqual({0, 1, 2, 3, 4}, indexes)
        self.assertLessEqual({1, 2, 3, 4, 5, 6, 256}, sizes)
        for event in ("of 2", "of 3", "of 4", "of 5", "direct tie", "gossip tie", "seen tie", "direct absent in one",
                      "gossip absent in one", "seen absent in one", "nothing at all", "direct at 0 against absent",
                      "gossip at 0 against absent", "seen at 0 against absent", "lowest is canonical",
                      "canonical is higher", "no member is canonical", "gap inside a group",
                      "last seen from another slot"):
            self.assertGreater(events[event], 10, event)

    def group(self, events: Counter, form: bytes, group: list) -> None:
        """Counts what is special about a group."""
        events[f"of {len(group)}"] += 1
        times = {"seen": [entry.last_seen for entry in group], "direct": [entry.autocrypt_timestamp for entry in group],
                 "gossip": [entry.gossip_timestamp for entry in group]}
        for part, told in times.items():
            there = [time for time in told if time is not None]
            events[f"{part} tie"] += there.count(max(there, default=None)) > 1
            events[f"{part} absent in one"] += 0 < len(there) < len(told)
            events[f"{part} at 0 against absent"] += 0 < len(there) < len(told) and max(there) == 0
        events["nothing at all"] += all(time is None for told in times.values() for time in told)
        spellings = [entry.address for entry in group]
        events["lowest is canonical"] += spellings[0] == form
        events["canonical is higher"] += form in spellings[1:]
        events["no member is canonical"] += form not in spellings
        there = [(entry.autocrypt_timestamp, entry) for entry in group if entry.direct_key is not None]
        if there:
            youngest = max(there, key=lambda one: one[0])[1]
            largest = max(time for time in times["seen"] if time is not None)
            events["last seen from another slot"] += largest > youngest.last_seen


def subsets(kinds: list[int]) -> list[tuple[int, ...]]:
    return [one for many in range(len(kinds) + 1) for one in itertools.combinations(kinds, many)]


# O3: the kinds that one field may have at once: an Autocrypt field, gossip in the outer block, gossip in the payload.
OWN = {(0, *kinds) for kinds in subsets([3, 4, 5]) + [(2,)] if kinds}
OUTSIDE = {(0, *sorted((6, *kinds))) for kinds in subsets([4, 5, 7, 8])}
INSIDE = {(1, *kinds) for kinds in subsets([4, 5, 7, 8]) if kinds}


def sort_of_addr(value: bytes, sender: bytes, recipients: list[bytes], elsewhere: list[bytes]) -> str:
    """Whom a gossip field is about (O6)."""
    named = linting.values_named(b"addr", value)
    if len(named) != 1:
        return "none" if named == [] else "two, equal" if named == named[:1] * len(named) else "two"
    form = address.canonical(named[0])
    if not address.is_plain(named[0]):
        return "not plain"
    if form in recipients:
        return "a recipient" if named[0] == form else "a recipient in another spelling"
    if form == sender:
        return "the sender, who is listed in From alone"
    return "hidden in another field" if form in elsewhere else "nobody"


def sort_of_key_data(value: bytes) -> str:
    """What is special about key data (O8)."""
    named, last = linting.values_named(b"keydata", value), linting.attributes(value)[-1]
    if len(named) != 1:
        good = linting.has_key_data(b"keydata=" + b"".join(named[-1:]))
        return "none" if named == [] else "twice, the last one good" if good else "twice"
    if value.rstrip(b" \t").endswith(b";"):
        return "a semicolon at the end"
    if last is None or last[0] != b"keydata":
        return "ignored behind it" if last is not None and last[0][:1] == b"_" else "not last"
    octets = base64.decode(named[0])
    if octets is None:
        bare = named[0].rstrip(b"=")
        return "unused bits" if base64.decode(bare[:-1] + b"A" + named[0][len(bare):]) else "no Base64"
    length = "longer" if len(octets) > 2049 else "some octets"
    return {0: "empty", 2048: "2,048", 2049: "2,049"}.get(len(octets), length)


class Outgoing(unittest.TestCase):
    """O1 to O9: what `lint` is given."""

    @classmethod
    def setUpClass(cls):
        cases = Cases(SEED)
        cls.drawn = [cases.linting() for _ in range(3000)]
        cls.answers = [linting.lint(outer, payload, 3 * linting.FAULTS_LIMIT) for outer, payload, _ in cls.drawn]

    def blocks(self) -> list[tuple[list, list]]:
        """The fields of both blocks of mails that are not refused for them."""
        return [(header.fields(outer), header.fields(payload))
                for (outer, payload, _), (number, _) in zip(self.drawn, self.answers) if number == 0]

    def test_answers_and_rooms_R12(self):
        answers, spare = Counter(), Counter()
        for (_, _, room), (number, faults) in zip(self.drawn, self.answers):
            short = number == 0 and room < 3 * len(faults)
            answers[number or (12 if short else "faults" if faults else "none")] += 1
            if number == 0:
                spare[room - 3 * len(faults)] += 1
                spare["none at all"] += room == 0 and faults != []
        self.assertEqual(set(answers), {4, 5, 7, 12, "faults", "none"})
        self.assertGreater(min(answers.values()), 100, answers)
        self.assertGreater(answers["faults"], 1000, answers)
        self.assertGreater(min(spare[room] for room in (-3, -2, -1, 0, 1, 2, 3, 300, "none at all")), 50, spare)

    def test_kinds_O3(self):
        """Every kind in many mails, and every set of kinds that a field can have in some."""
        mails, sets = Counter(), Counter()
        for _, faults in self.answers:
            mails.update({kind for _, _, kind in faults})
            for at, group in itertools.groupby(faults, lambda fault: fault[:2]):
                sets[at[0], *(kind for _, _, kind in group)] += 1
        self.assertEqual(set(mails), set(range(1, 9)))
        self.assertGreater(min(mails.values()), 300, mails)
        self.assertEqual(set(sets), {(0, 1)} | OWN | OUTSIDE | INSIDE)

    def test_blocks_O1_O2(self):
        """Fields at many places, folded and not, with names in any case; reports, and mails without a payload."""
        places = {fault[:2] for _, faults in self.answers for fault in faults}
        self.assertLessEqual({(0, place) for place in range(16)} | {(1, place) for place in range(1, 8)}, places)
        self.assertGreater(max(place for _, place in places), 300)
        met = Counter()
        for outer, payload in self.blocks():
            met["report"] += any(header.is_report(value) for value in header.values_of(outer, b"Content-Type"))
            met["no payload"] += payload == []
            met["Autocrypt in the payload"] += header.values_of(payload, b"Autocrypt") != []
            met["another case"] += any(name.lower() == b"autocrypt" and name != b"Autocrypt" for name, _ in outer)
            valid = linting.valid_places(outer, processing.sender_of(outer))
            met[f"{min(len(valid), 3)} valid"] += 1
            met["equal ones"] += len({outer[place - 1] for place in valid}) < len(valid)
        self.assertEqual(len(met), 9)
        self.assertGreater(min(met.values()), 30, met)
        folded = sum(b"\n " in outer and faults != [] for (outer, _, _), (_, faults) in zip(self.drawn, self.answers))
        self.assertGreater(folded, 300)

    def test_whom_gossip_is_about_O6(self):
        met = Counter()
        for outer, payload in self.blocks():
            recipients, sender = processing.recipients_of(outer), processing.sender_of(outer)
            others = [value for name, value in outer + payload if not header.same_name(name, b"From")
                      and not name.lower().startswith(b"autocrypt")]
            elsewhere = [address.canonical(word) for value in others for word in value.strip(b" \t,;").split()]
            for value in header.values_of(outer + payload, b"Autocrypt-Gossip"):
                met[sort_of_addr(value, sender, recipients, elsewhere)] += 1
        self.assertEqual(set(met), {"none", "two", "two, equal", "not plain", "a recipient", "nobody",
                                    "a recipient in another spelling", "the sender, who is listed in From alone",
                                    "hidden in another field"})
        self.assertGreater(min(met.values()), 20, met)

    def test_own_addresses_O6(self):
        """Valid fields for the sender in another spelling, and fields for somebody with nearly the same address."""
        met = Counter()
        for outer, _ in self.blocks():
            sender = processing.sender_of(outer)
            for place in linting.valid_places(outer, sender):
                named, = linting.values_named(b"addr", outer[place - 1][1])
                met["as it is" if named == sender else sort_of(named)] += 1
        self.assertGreater(min(met[sort] for sort in ("as it is", "equal by the longer map", "another script", "coded",
                                                      "ASCII")), 20, met)

    def test_pieces_O7_O9(self):
        """Pieces without `=`, with an empty name, ignored, unknown; preferences with any value, and two of them."""
        met = Counter()
        for outer, payload in self.blocks():
            for value in header.values_of(outer, b"Autocrypt") + header.values_of(payload, b"Autocrypt-Gossip"):
                pieces = [piece.strip(b" \t") for piece in value.split(b";")]
                met["empty"] += b"" in pieces
                met["no sign"] += any(b"=" not in piece and piece for piece in pieces)
                met["empty name"] += any(piece.startswith(b"=") for piece in pieces)
                met["ignored"] += any(piece.startswith(b"_") and b"=" in piece for piece in pieces)
                met["unknown"] += linting.has_unknown_attribute(value)
                said = linting.values_named(b"prefer-encrypt", value)
                met["mutual"] += said == [b"mutual"]
                met["another preference"] += len(said) == 1 and said != [b"mutual"]
                met["two preferences"] += len(said) > 1
        self.assertEqual(len(met), 8)
        self.assertGreater(min(met.values()), 50, met)

    def test_key_data_O8(self):
        met = Counter()
        for outer, payload in self.blocks():
            for value in header.values_of(outer, b"Autocrypt") + header.values_of(payload, b"Autocrypt-Gossip"):
                met[sort_of_key_data(value)] += 1
        self.assertEqual(set(met), {"none", "twice", "twice, the last one good", "a semicolon at the end", "not last",
                                    "ignored behind it", "no Base64", "unused bits", "empty", "2,048", "2,049",
                                    "longer", "some octets"})
        self.assertGreater(min(met.values()), 8, met)


def function_lines(path: pathlib.Path) -> set[int]:
    """The lines of all function bodies of a source file that can be executed."""
    found: set[int] = set()
    waiting = [(compile(path.read_text(), str(path), "exec"), False)]
    while waiting:
        code, inside = waiting.pop()
        if inside:
            found |= {line for _, _, line in code.co_lines() if line is not None}
            found.discard(code.co_firstlineno)
        for constant in code.co_consts:
            if isinstance(constant, types.CodeType):
                is_class = "__qualname__" in constant.co_names and constant.co_name[0].isupper()
                waiting.append((constant, not is_class))
    return found


class EveryLine(unittest.TestCase):
    """Every line of every function of the independent program is reached by some case."""

    def test_every_line(self):
        folder = pathlib.Path(scope.__file__).parent
        reached: dict[str, set[int]] = {str(path): set() for path in folder.glob("*.py")}

        def local(frame, event, _argument):
            if event == "line":
                reached[frame.f_code.co_filename].add(frame.f_lineno)
            return local

        def calls(frame, _event, _argument):
            return local if frame.f_code.co_filename in reached else None

        cases = Cases(SEED)
        rounds = [
            (150, base64.decode, lambda: (cases.base64_text(),)),
            (200, tokens.skip, lambda: (cases.comment_text(), 0)),
            (200, tokens.quoted, lambda: (cases.quoted_text(), 0)),
            (200, date.seconds, lambda: (cases.date_value(),)),
            (600, date.seconds, lambda: (cases.spaced(cases.edge_date()),)),
            (200, header.fields, lambda: (cases.header_block(),)),
            (20, header.fields, lambda: (cases.sized(cases.header_block()),)),
            (300, address.addresses, lambda: (cases.address_list(),)),
            (900, address.addresses, lambda: (cases.bad_list(),)),
            (500, address.is_plain, lambda: (cases.edge_address(),)),
            (200, keyfield.read, lambda: (cases.field_value(),)),
            (300, table.check, lambda: (cases.broken_slot(),)),
            (400, processing.process, cases.processing),
            (200, recommending.target_key, cases.target),
            (60, table.entry_numbers, cases.one_slot),
            (100, address.is_canonical, lambda: (cases.accented(),)),
            (300, displaying.display, cases.displaying),
            (300, displaying.display, lambda: (cases.international(), 1024)),
            (200, address.is_old_canonical, lambda: (cases.edge_address(),)),
            (300, punycode.decode, lambda: (cases.coded_label()[4:],)),
            (20, punycode.decode, lambda: (cases.script_label() + b"-9ca",)),
            (100, conversion.convert, lambda: (cases.conversion(),)),
            (60, writing.write_autocrypt, cases.writing),
            (60, writing.write_gossip, cases.writing_gossip),
            (60, listing.listing, lambda: (cases.listing_input(),)),
            (200, recommending.quick, cases.quick),
            (200, linting.lint, cases.linting),
        ]
        before = sys.gettrace()
        for count, call, draw in rounds:
            arguments = [draw() for _ in range(count)]
            sys.settrace(calls)
            try:
                for one in arguments:
                    call(*one)
            finally:
                sys.settrace(before)
        for path, lines in sorted(reached.items()):
            missing = sorted(function_lines(pathlib.Path(path)) - lines)
            self.assertEqual(missing, [], pathlib.Path(path).name)


if __name__ == "__main__":
    unittest.main()
