"""Page O: looking outgoing mail over; refusals 4, 5, 7 and 12, and claims C22 to C24."""

import base64 as standard
import itertools
import unittest
from collections import Counter

import lints
from cases import Cases
from scope import calls, header, keyfield, linting
from scope.address import canonical, is_plain
from scope.linting import FAULTS_LIMIT, lint
from scope.processing import TAKE, Fields, process, recipients_of, sender_of
from scope.table import SLOT
from scope.writing import write_autocrypt, write_gossip

SEED = 20171107


class Lints(lints.Lints, unittest.TestCase):
    program = calls


class Questions(unittest.TestCase):
    """What is asked of a field, one question after the other."""

    def test_the_numbers_of_blocks_and_kinds_O2_O3(self):
        self.assertEqual((linting.OUTER, linting.PAYLOAD), (0, 1))
        self.assertEqual([linting.NO_VALID, linting.MORE_VALID, linting.WRONG_ADDRESS, linting.UNKNOWN_ATTRIBUTE,
                          linting.KEY_DATA, linting.GOSSIP_OUTSIDE, linting.GOSSIP_UNLISTED, linting.GOSSIP_PREFERENCE],
                         list(range(1, 9)))

    def test_valid_fields_O5(self):
        good, long = b"addr=A@B; keydata=Zg==", b"addr=a@b; keydata=" + b"AAAA" * 683
        fields = [(b"To", good), (b"Autocrypt", good), (b"Autocrypt", b"x"), (b"Autocrypt-Gossip", good),
                  (b"AUTOCRYPT", good), (b"Autocrypt", long), (b"Autocrypt", b"addr=c@d; keydata=Zg==")]
        self.assertEqual(linting.valid_places(fields, b"a@b"), [2, 5])
        self.assertEqual(linting.valid_places(fields, b"c@d"), [7])
        self.assertEqual(linting.valid_places(fields, b"e@f"), [])

    def test_addresses_O6(self):
        for value, about in [(b"addr=A@b", True), (b"addr=a@b; x; addr", True), (b"addr=c@d", True),
                             (b"addr=e@f", False), (b"addr=a@b; addr=a@b", False), (b"Addr=a@b", False), (b"", False),
                             (b"addr=a@b c@d", False)]:
            self.assertEqual(linting.is_about(value, [b"a@b", b"c@d"]), about, value)
        # What is no plain address is about nobody, be it among them.
        self.assertFalse(linting.is_about(b"addr=", [b""]))

    def test_unknown_attributes_O7(self):
        for value, unknown in [(b"", False), (b"x", False), (b"=x", False), (b"_=", False), (b"x=", True),
                               (b"Addr=", True), (b"addr=;prefer-encrypt=;keydata=", False), (b"_x=; y=", True),
                               (b"; ; y=1;", True)]:
            self.assertEqual(linting.has_unknown_attribute(value), unknown, value)

    def test_key_data_O8(self):
        for value, right in [(b"keydata=Zg==", True), (b"x;keydata=", True), (b"keydata=Zg", False),
                             (b"keydata=Zh==", False), (b"keydata=Zg==;", False), (b"keydata=;keydata=", False),
                             (b"keydata", False), (b"", False), (b"keydata=Zg==; _x=1", False),
                             (b"keydata; keydata=Zg==", True), (b"keydata=" + b"A" * 9000, True)]:
            self.assertEqual(linting.has_key_data(value), right, value[:40])

    def test_preferences_O9(self):
        for value, there in [(b"prefer-encrypt=mutual", True), (b"prefer-encrypt=", True),
                             (b"x;prefer-encrypt=y;", True), (b"prefer-encrypt", False), (b"_prefer-encrypt=", False),
                             (b"Prefer-encrypt=mutual", False)]:
            self.assertEqual(linting.has_preference(value), there, value)

    def test_the_examples_O10(self):
        for more, payload, faults in lints.EXAMPLES:
            self.assertEqual(lint(lints.HEAD + more, payload, 3 * len(faults)), (0, faults))


class Many(unittest.TestCase):
    """What holds of every mail, by cases."""

    @classmethod
    def setUpClass(cls):
        cases = Cases(SEED)
        cls.drawn = [cases.linting() for _ in range(2000)]
        cls.answers = [lint(outer, payload, 3 * FAULTS_LIMIT) for outer, payload, _ in cls.drawn]

    def mails(self):
        """Mails that are not refused for their blocks: the fields of both, the sender, and all faults."""
        for (outer, payload, _), (number, faults) in zip(self.drawn, self.answers):
            if number == 0:
                blocks = header.fields(outer), header.fields(payload)
                yield blocks, sender_of(blocks[0]), faults

    def test_refusals_are_those_of_processing_R4_R5_R7_R12(self):
        """4, 5 and 7 as `process` gives them where gossip is taken, but for reports; and 12 where the list is short."""
        numbers = Counter()
        for (outer, payload, room), (number, faults) in zip(self.drawn, self.answers):
            processed = process(bytes(9 * SLOT), 0, outer, payload, TAKE)[0]
            self.assertIn(number, (0, 7) if processed == 6 else (processed,))
            if number == 0 and room < 3 * len(faults):
                number, faults = 12, []
            # O1, R32: the room decides nothing else.
            self.assertEqual(lint(outer, payload, room), (number, faults))
            numbers[number, processed == 6] += 1
        self.assertEqual(set(numbers), {(0, False), (4, False), (5, False), (7, False), (12, False),
                                        (0, True), (7, True), (12, True)})

    def test_order_and_places_O2_O3_O4(self):
        met = Counter()
        for blocks, _, faults in self.mails():
            self.assertEqual(faults, sorted(set(faults)))
            for block, place, kind in faults:
                met[block, kind] += 1
                if kind == 1:
                    self.assertEqual((block, place), (0, 0))
                    continue
                name = blocks[block][place - 1][0].lower()
                # O3: no Autocrypt field of a payload, and no kind that is not asked of the field.
                asked = {4, 5, 6, 7, 8} if name == b"autocrypt-gossip" else {2, 3, 4, 5} if name == b"autocrypt" else {}
                self.assertIn(kind, asked)
                self.assertTrue(block == 0 or name == b"autocrypt-gossip" and kind != 6)
        self.assertEqual(set(met), {(0, kind) for kind in range(1, 9)} | {(1, kind) for kind in (4, 5, 7, 8)})
        self.assertGreater(min(met.values()), 100, met)

    def test_each_fault_and_no_other_C22(self):
        """Each kind said in another way, by the reader of page F: what is there is listed, and so the list is empty
        exactly where nothing is there."""
        sizes = Counter()
        for (outer, payload), sender, faults in self.mails():
            recipients, valid, there = recipients_of(outer), 0, []
            for place, name, value in numbered(outer):
                if name == b"autocrypt":
                    field = keyfield.read(value)
                    is_valid = field is not None and field.address == sender
                    kinds = {2: is_valid and valid > 0, 3: is_about_others(value, [sender]), **of_both(value)}
                    valid += is_valid
                else:
                    kinds = {6: True, **of_gossip(value, recipients)} if name == b"autocrypt-gossip" else {}
                there += [(0, place, kind) for kind in kinds if kinds[kind]]
            for place, name, value in numbered(payload):
                kinds = of_gossip(value, recipients) if name == b"autocrypt-gossip" else {}
                there += [(1, place, kind) for kind in kinds if kinds[kind]]
            if valid == 0:
                there.append((0, 0, 1))
            self.assertEqual(faults, sorted(there))
            sizes[min(len(there), 9)] += 1
        self.assertGreater(min(sizes[size] for size in range(10)), 50, sizes)

    def test_where_a_field_counts_C24_F13(self):
        """Without the kinds 1 and 2 one field counts, and with one of them none does."""
        met = Counter()
        for (outer, _), sender, faults in self.mails():
            counted = keyfield.counted(header.values_of(outer, b"Autocrypt"), sender)
            first = {kind for _, _, kind in faults} & {1, 2}
            self.assertEqual(counted is None, first != set())
            met[tuple(first)] += 1
        self.assertEqual(set(met), {(), (1,), (2,)})
        self.assertGreater(min(met.values()), 200, met)

    def test_what_spoils_a_field_and_is_no_fault_O7_O8_O9(self):
        """Besides the kinds 3, 4, 5 and 7 these spoil a field alone: a piece that is no attribute (F3), two preferences
        (F7), and the length of the key (F10)."""
        met = Counter()
        for (outer, payload), sender, faults in self.mails():
            told = [(0, *field) for field in numbered(outer)] + [(1, *field) for field in numbered(payload)]
            wanted = {(0, b"autocrypt"): [sender], (0, b"autocrypt-gossip"): recipients_of(outer),
                      (1, b"autocrypt-gossip"): recipients_of(outer)}
            for block, place, name, value in told:
                if (block, name) in wanted:
                    field = keyfield.read(value)
                    good = field is not None and field.address in wanted[block, name]
                    kinds = {kind for *at, kind in faults if at == [block, place]} & {3, 4, 5, 7}
                    self.assertEqual(good, kinds == set() and not is_spoiled(value), value)
                    met[name, good, kinds == set()] += 1
        self.assertEqual(len(met), 6)
        self.assertGreater(min(met.values()), 50, met)

    def test_what_our_writers_wrote_C23(self):
        cases = Cases(SEED)
        written = 0
        for _ in range(800):
            sender, key, mutual, _ = cases.writing()
            number, own = write_autocrypt(sender, key, mutual, 9000)
            recipients = [address for address in (cases.address(), cases.peer()) if is_plain(address)]
            told = [write_gossip(address, cases.good_key(), 9000) for address in recipients]
            if number != 0 or not recipients:
                continue
            outer = b"From: <" + sender + b">\r\n" + own + b"To: <" + b">, <".join(recipients) + b">\r\n"
            payload = b"".join(field for _, field in told)
            self.assertEqual(lint(outer, payload, 0), (0, []), (outer, payload))
            # The same for others: each of the payload's fields is about nobody in the list, and no own field is valid.
            outer = b"From: nobody@n\r\n" + own
            if canonical(sender) != b"nobody@n":
                self.assertEqual(lint(outer, payload, 300)[1],
                                 [(0, 0, 1), (0, 2, 3)] + [(1, place, 7) for place in range(1, len(told) + 1)])
            written += 1
        self.assertGreater(written, 200)


# Each kind once more, said in another way.


def numbered(fields: Fields) -> list[tuple[int, bytes, bytes]]:
    """The fields of a block with their places, and their names in small letters."""
    return [(place, name.lower(), value) for place, (name, value) in enumerate(fields, 1)]


def named(value: bytes, name: bytes) -> list[bytes]:
    """The pieces of a value that have this name and an `=`."""
    return [piece for piece in value.split(b";") if b"=" in piece and piece.partition(b"=")[0].strip(b" \t") == name]


def is_about_others(value: bytes, wanted: list[bytes]) -> bool:
    """O6: the addresses of the value, each put into a field that is good, do not say just one of those wanted."""
    fields = [keyfield.read(piece + b"; keydata=Zg==") for piece in named(value, b"addr")]
    return len(fields) != 1 or fields[0] is None or fields[0].address not in wanted


def is_unknown(piece: bytes) -> bool:
    """O7: the piece has an `=` and a name, and spoils a field that is good, or is one more of what that has."""
    name = piece.partition(b"=")[0].strip(b" \t")
    if b"=" not in piece or name in (b"", b"addr", b"keydata"):
        return False
    return keyfield.read(b"addr=a@b;" + piece + b"; keydata=Zg==") is None


def is_base64(text: bytes) -> bool:
    """F9, by the standard library: what the text decodes to is written so again."""
    text = text.translate(None, b" \t")
    try:
        return standard.b64encode(standard.b64decode(text)) == text
    except ValueError:
        return False


def of_both(value: bytes) -> dict[int, bool]:
    keys, last = named(value, b"keydata"), value.rpartition(b";")[2]
    right = len(keys) == 1 and last in keys and is_base64(last.partition(b"=")[2])
    return {4: any(is_unknown(piece) for piece in value.split(b";")), 5: not right}


def of_gossip(value: bytes, recipients: list[bytes]) -> dict[int, bool]:
    return {**of_both(value), 7: is_about_others(value, recipients), 8: named(value, b"prefer-encrypt") != []}


def is_spoiled(value: bytes) -> bool:
    """Whether something other than a fault of a kind spoils a field whose key data is last and Base64 (F3, F7, F10)."""
    if any(keyfield.part(piece) is None for piece in value.split(b";")) or len(named(value, b"prefer-encrypt")) > 1:
        return True
    return not 1 <= len(standard.b64decode(value.rpartition(b";")[2].partition(b"=")[2])) <= 2048


class Most(unittest.TestCase):
    """O11: how many faults there can be."""

    def faults_of(self, line: bytes, outside: bool) -> int:
        """How many faults a field has that stands beside one From alone."""
        number, faults = lint(b"From:a@b\n" + line, b"", 300) if outside else lint(b"From:a@b\n", line, 300)
        self.assertEqual(number, 0)
        # Kind 1 is that of the block.
        return len(faults) - (faults[0] == (0, 0, 1) if faults else 0)

    def test_octets_for_each_fault_O11(self):
        """A field has 13 octets for three faults, at least, and in the payload 20.

        An Autocrypt field has three faults at most, since a valid one has no other than 2; so longer values than those
        tried here are within the bound. Gossip has five at most, for which the bound asks for 22 octets, as it has with
        a value of four. In the payload it has four at most, for which the bound asks for 27 octets; with a value of
        less than 15 it has no preference, and three at most, for which the bound asks for 20.
        """
        for many in range(5):
            for octets in itertools.product(b"x=;_", repeat=many):
                for name in (b"Autocrypt:", b"Autocrypt-Gossip:"):
                    line = name + bytes(octets) + b"\n"
                    self.assertLessEqual(13 * self.faults_of(line, True), 3 * len(line), line)
                    self.assertLessEqual(20 * self.faults_of(line, False), 3 * len(line), line)

    def test_room_for_all_O11(self):
        # The last line may go without its LF, and the shortest From has nine octets. Kind 1 comes on top.
        outer, payload = (65_537 - 9) * 3 // 13 + 1, 65_537 * 3 // 20
        self.assertEqual((outer, payload), (15_122, 9_830))
        self.assertLess(outer + payload, FAULTS_LIMIT)
        # The first is reached, and the second nearly (see `test_full_blocks_O11`): 24,951 in all.
        self.assertEqual(outer + payload - 1, 24_951)


if __name__ == "__main__":
    unittest.main()
