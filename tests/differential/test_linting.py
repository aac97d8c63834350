"""The shipped library's `lint` against the independent program: generated mails, lists of each length, full blocks."""
import unittest
from collections import Counter

from against import Cases
from both import Both
import lints
from scope import calls
from scope.linting import FAULTS_LIMIT
from probe import SEED

ALL = 3 * FAULTS_LIMIT  # three numbers for each of VIENGHULAC_FAULTS

# What may stand in the place of any octet of a small mail.
TELLING = b"\0\t\n\r ,:;=<@A_ax.(\"\x80\xff"

SMALL = (
    b"From: a@b\nTo: c@d\nAutocrypt: addr=a@b; keydata=Zg==\n"
    b"Autocrypt:_=;addr=A@B;\n prefer-encrypt=x;keydata=\n\tZm9v\nAutocrypt-Gossip: addr=c@d;keydata=Zm8="
)
TOLD = (
    b"X: y\r\nAutocrypt-Gossip: addr=C@D; keydata=\r\n Zg==\r\n"
    b"Autocrypt-Gossip:addr=c@d;_prefer-encrypt=;keydata=Zg==\r\n"
)


class Lints(lints.Lints, unittest.TestCase):
    """Page O, example by example."""

    program = Both()


class Linting(unittest.TestCase):
    """Page O, C22 and C23, and refusals 4, 5, 7 and 12. `Both` looks at the answer, and at all of the lent numbers."""

    def setUp(self):
        self.both = Both()
        self.cases = Cases(SEED)
        self.random = self.cases.random

    def looked_over(self, outer: bytes, payload: bytes, *rooms: int) -> tuple[int, list]:
        """The mail with lists of these lengths, with a list that is just long enough, and with one number less."""
        number, faults = calls.lint(outer, payload, ALL)
        just = 3 * len(faults)
        for room in {*rooms, just, max(0, just - 1)}:
            short = number == 0 and room < just
            self.both.linted(outer, payload, room, 12 if short else number, [] if short else faults)
        return number, faults

    def test_mails(self):
        """30,000 generated mails: every answer, and every kind in both blocks."""
        answers, kinds = Counter(), Counter()
        for _ in range(30_000):
            outer, payload, room = self.cases.linting()
            number, faults = self.looked_over(outer, payload, room)
            answers[12 if room < 3 * len(faults) else number or ("faults" if faults else "none")] += 1
            kinds.update((block, kind) for block, _, kind in faults)
        self.assertEqual(set(answers), {4, 5, 7, 12, "faults", "none"})
        self.assertGreater(min(answers.values()), 1_000, answers)
        self.assertEqual(set(kinds), {(0, kind) for kind in range(1, 9)} | {(1, kind) for kind in (4, 5, 7, 8)})
        self.assertGreater(min(kinds.values()), 1_000, kinds)

    def test_every_room_R12(self):
        """Lists of every length, from none at all to more than a mail needs."""
        sizes = Counter()
        for _ in range(1_000):
            outer, payload, _ = self.cases.linting()
            _, faults = calls.lint(outer, payload, ALL)
            self.looked_over(outer, payload, *range(min(3 * len(faults), 60) + 5))
            sizes[min(len(faults), 9)] += 1
        self.assertGreater(min(sizes[size] for size in range(10)), 10, sizes)

    def test_every_octet(self):
        """A small mail with each of its octets left out, and with another one in its place or in front of it."""
        found = Counter()
        for block in (0, 1):
            for at in range(len((SMALL, TOLD)[block]) + 1):
                for octet in [b""] + [bytes([octet]) for octet in TELLING]:
                    for end in (at, at + 1):
                        mail = [SMALL, TOLD]
                        mail[block] = mail[block][:at] + octet + mail[block][end:]
                        number, faults = self.looked_over(*mail)
                        found[number, *sorted({kind for _, _, kind in faults})] += 1
        self.assertEqual({number for number, *_ in found}, {0, 4, 5, 7})
        self.assertEqual({kind for _, *kinds in found for kind in kinds}, set(range(1, 9)))

    def test_written_C23(self):
        """What the library itself writes has no faults; nor has it among other fields."""
        written = 0
        for _ in range(2_000):
            sender, key, mutual, _ = self.cases.writing()
            number, length, own = self.both.library.write_autocrypt(sender, key, mutual, bytes(3200))
            if number:
                continue
            listed = [self.cases.one([self.cases.peer(), sender]) for _ in range(self.random.randint(1, 4))]
            told = [self.both.library.write_gossip(name, self.cases.good_key(), bytes(3200)) for name in listed]
            self.assertEqual({number for number, _, _ in told}, {0})
            lines = [b"From: <" + sender + b">\r\n", own[:length], b"To: " + self.cases.list_of(listed) + b"\r\n"]
            lines += [b"Subject: x\r\n"] * self.random.randrange(3)
            self.random.shuffle(lines)
            payload = b"".join(field[:length] for _, length, field in told)
            self.both.linted(b"".join(lines), payload, 3, 0, [])
            written += 1
        self.assertGreater(written, 500)

    def test_many_recipients_O6_G4(self):
        """A To as long as a block may have, and a payload full of gossip about some of those in it and about others."""
        names = [b"%x@b" % i for i in range(9_000)]
        to = b"From:a@b\nTo:" + b",".join(names)
        outer = to[: to.rindex(b",", 0, 65_536)]
        for pick in (lambda: names[-1], lambda: self.random.choice(names), lambda: b"%x@c" % self.random.randrange(99)):
            payload = b""
            while len(payload) < 65_400:
                payload += b"Autocrypt-Gossip:addr=%s;keydata=\n" % pick()
            _, faults = self.looked_over(outer, payload, ALL)
            self.assertEqual({kind for _, _, kind in faults} - {7}, {1})
        # Where that list cannot be read nobody is a recipient.
        _, faults = self.looked_over(outer + b",", payload, ALL)
        self.assertEqual(len(faults), 1 + payload.count(b"\n"))

    def test_full_blocks_O11(self):
        """Blocks full of short lines, in any order; and one octet too many, which is another answer."""
        lines = [b"Autocrypt:x=\n", b"Autocrypt:\n", b"Autocrypt-Gossip:x=\n", b"Autocrypt-Gossip:x=;prefer-encrypt=\n"]
        lines += [b"Autocrypt:addr=a@b;keydata=AA==\n", b"X:\n"]
        largest = 0
        for some in [[line] for line in lines] + [lines, lines[:4]]:
            blocks = [b"From:a@b\n", b""]
            for block in (0, 1):
                while len(blocks[block]) + 40 <= 65_536:
                    blocks[block] += self.random.choice(some)
                blocks[block] += b"X:" + b"x" * (65_536 - len(blocks[block]) - 2)
            _, faults = self.looked_over(*blocks, 0, ALL)
            largest = max(largest, len(faults))
            self.assertEqual(self.both.lint(blocks[0] + b"x", blocks[1], ALL), (4, []))
            self.assertEqual(self.both.lint(blocks[0], blocks[1] + b"x", ALL), (7, []))
        self.assertLess(largest, FAULTS_LIMIT)
        self.assertGreater(largest, 20_000)


if __name__ == "__main__":
    unittest.main()
