"""Processing messages through the shipped library, against the independent program: answers and whole tables."""
import unittest
from collections import Counter

from against import Cases
from both import Both
from scope import date, header, keyfield, processing, table as tables
from probe import SEED


def what_happened(table: bytes, receipt: int, outer: bytes, payload: bytes, gossip: int) -> list[str]:
    """The branches of the update that an accepted message takes."""
    fields = header.fields(outer)
    sender = processing.sender_of(fields)
    effective = date.effective(header.values_of(fields, b"Date"), receipt)
    values = header.values_of(fields, b"Autocrypt")
    valid = [f for f in map(keyfield.read, values) if f is not None and f.address == sender]
    held = {entry.address: entry for entry in tables.entries(table) if entry}
    entry = held.get(sender)
    took = ["two valid fields" if len(valid) > 1 else "a key" if valid else "no key"]
    if entry is None:
        took.append("new sender")
    elif entry.direct_key is None:
        took.append("sender without a key")
    else:
        stored = entry.autocrypt_timestamp
        took.append("older" if effective < stored else "equal" if effective == stored else "younger")
    if effective in (0, tables.TIME_LIMIT):
        took.append("date %d" % effective)
    seen = set()
    taken = header.fields(payload) if processing.is_taken(gossip) else []
    for field in processing.accepted_gossip(fields, taken):
        entry = held.get(field.address)
        stored = entry.gossip_timestamp if entry else None
        if field.address in seen:
            took.append("gossip again")
        elif field.address == sender:
            took.append("gossip about the sender")
        elif entry is None:
            took.append("gossip newcomer")
        elif stored is None:
            took.append("first gossip")
        else:
            took.append("gossip older" if effective < stored else "gossip equal" if effective == stored else "gossip younger")
        seen.add(field.address)
    return took


ALL = {
    "two valid fields", "a key", "no key", "new sender", "sender without a key", "older", "equal", "younger",
    "date 0", "date %d" % tables.TIME_LIMIT,
    "gossip again", "gossip about the sender", "gossip newcomer", "first gossip", "gossip older", "gossip equal", "gossip younger",
}


class Processing(unittest.TestCase):
    """Pages U and G, and refusals 1 to 8."""

    def setUp(self):
        self.both = Both()
        self.cases = Cases(SEED)
        self.random = self.cases.random

    def same(self, table: bytes, *message) -> tuple[int, bytes]:
        number, _, after = self.both.process(table, *message)
        return number, after

    def test_messages(self):
        """Single messages on generated tables: every answer and every branch of the update."""
        answers, branches = Counter(), Counter()
        for _ in range(20_000):
            case = self.cases.processing()
            number, _ = self.same(*case)
            answers[number] += 1
            if number == 0:
                branches.update(what_happened(*case))
        self.assertEqual(set(answers), set(range(9)))
        self.assertEqual(set(branches), ALL)

    def test_sequences(self):
        """Sequences of messages, each on the table that the one before has left."""
        answers = Counter()
        for slots in [1, 2, 3, 5, 8, 16, 40, 256] * 25:
            table = self.cases.sound_table() if self.random.random() < 0.3 else bytes(slots * tables.SLOT)
            for _ in range(150 if slots < 256 else 60):
                number, table = self.same(table, *self.cases.message())
                answers[number] += 1
        self.assertGreater(sum(answers.values()), 25_000)
        self.assertEqual(set(answers), {0, 3, 4, 5, 6, 7, 8})

    def test_room_R8(self):
        """Newcomers for whom there is exactly enough room, and one slot less."""
        key = b"keydata=Zm9v"
        for known in range(4):
            for new in range(1, 12):
                names = [b"n%d@x.example" % i for i in range(new + known)]
                outer = b"From: Me <ME@x.example>\r\nTo: " + b", ".join(names) + b"\r\n"
                fields = names + self.random.sample(names, len(names) // 2) + [b"stranger@x.example"]
                payload = b"".join(b"Autocrypt-Gossip: addr=%s; %s\r\n" % (name, key) for name in fields)
                entries = [tables.Entry(name) for name in names[:known]]
                for free in (new, new + 1, new + 2):
                    table = tables.table_of(entries + [None] * free)
                    number, _ = self.same(table, 1000, outer, payload, processing.TAKE)
                    self.assertEqual(number, 8 if free < new + 1 else 0)

    def test_receipt_times_R3(self):
        table = bytes(2 * tables.SLOT)
        for receipt in (0, 1, tables.TIME_LIMIT - 1, tables.TIME_LIMIT, tables.TIME_LIMIT + 1, (1 << 64) - 1):
            number, _ = self.same(table, receipt, b"From: a@b\n", b"", 0)
            self.assertEqual(number, 3 if receipt > tables.TIME_LIMIT else 0)

    def test_full_payload_U4_G4(self):
        """A payload full of small gossip fields, and a To list as long as a block may have."""
        names = [b"%x@b" % i for i in range(9_000)]
        self.full(names, lambda: names[self.random.randrange(200)], lambda: b"%x@c" % self.random.randrange(2_000), lambda: self.random.choice(names))

    def test_full_payload_in_other_scripts_L22(self):
        """As above with domains that have to be coded: one and the same, others, and the same ones spelled in two ways."""
        domains = ["é".encode(), "Я".encode(), b"xn--9ca"]
        for of in (domains[:1], domains):
            names = [b"%x@" % (i // len(of)) + of[i % len(of)] for i in range(9_000)]
            self.full(names, lambda: names[self.random.randrange(200)], lambda: b"%x@" % self.random.randrange(2_000) + "ê".encode(),
                      lambda: b"%x@" % self.random.randrange(200) + self.random.choice(domains))

    def full(self, names: list[bytes], *picks) -> None:
        """Every name in one list, as many as it has room for, and for each pick a payload of gossip about what it picks."""
        to = b"From:a@b\nTo:" + b",".join(names)
        outer = to[: to.rindex(b",", 0, 65_536)]
        for pick in picks:
            payload = b""
            while len(payload) < 65_400:
                payload += b"Autocrypt-Gossip:addr=%s;keydata=Zm9v\n" % pick()
            for slots in (1, 202, 256):
                self.same(bytes(slots * tables.SLOT), 1000, outer, payload, processing.TAKE)


if __name__ == "__main__":
    unittest.main()
