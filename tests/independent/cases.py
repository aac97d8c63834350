"""Cases made on the fly from a seed, for comparing programs with one another.

    cases = Cases(7)
    table, receipt, outer, payload, gossip = cases.processing()

Every method hands out one new input. Each mixes good input, input at both ends of
each limit of docs/SCOPE.md, and good input that was mutated. The same seed gives the
same cases in the same order; nothing is stored.
"""

import random

from scope import base64, punycode, utf8
from scope.address import ADDRESS_LIMIT, LABEL_LIMIT, PREFIX, canonical, is_canonical, is_plain, label_form
from scope.date import DAY, DAY_NAMES, HOUR, MINUTE, MONTH_NAMES, ZONE_HOURS, days_in_month
from scope.date import days_in_year
from scope.displaying import display, shown_label
from scope.header import BLOCK_LIMIT
from scope.linting import FAULTS_LIMIT, lint
from scope.processing import SKIP, TAKE, UNSET
from scope.recommending import GAP_LIMIT, RECIPIENTS_LIMIT
from scope.table import (BITS_AT, KEY_LIMIT, NUMBERS, SLOT, SLOTS_LIMIT, TIME_LIMIT, Entry, slot_of, table_of)
from scope.tokens import ATOM_SIGNS, COMMENT_DEPTH
from scope.writing import write_autocrypt, write_gossip

# The people who write to one another in the cases. They are few, so that tables,
# messages and recipient lists meet.
ASCII_PEERS = [b"alice@a.example", b"bob@b.example", b"carol@c.example", b"p=q+r@g.example", b"x@y"]

# L8: letters of each range of L21, letters that only look as though they had a capital there, and one whose name is not
# well formed, so that its capital letter stays.
ACCENTED_PEERS = ["éva@f.example".encode(), "ёжик@h.example".encode(), "σοφία.÷ÿß@i.example".encode(),
                  b"\xc3\x89v\xff@k.example"]

# L22: domains in other scripts, by their forms: one label and two, and one that is the code of a capital, so that
# nobody can type it in another way.
DOMAIN_PEERS = [canonical("dora@bücher.example".encode()), canonical("ёж@сад.пример".encode()), b"\xc3\xa9@xn--dca"]

PEERS = ASCII_PEERS + ACCENTED_PEERS + DOMAIN_PEERS

# L21: the capital of each letter that has one.
CAPITALS = {utf8.small(point): point for point in range(0x500) if utf8.small(point) != point}

# What other programs may take for a letter and its capital, or for the same letter, and L21 does not.
NEAR_MISSES = {ord(letter): ord(other) for letter, other in
               ["÷×", "ς\u03a2", "άΆ", "ίΊ", "ÿŸ", "ßẞ", "ѡѠ", "āĀ", "k\u212a", "i\u0130", "x×", "eе", "aа", "oо", "pр",
                "éê", "ёе", "жѫ", "σς"]}

# L20, L21: code points at the ends of what takes one to four octets, of the surrogates and of the ranges; beside the
# ends; and those that the ranges leave out.
EDGES = [0x80, 0x7FF, 0x800, 0xD7FF, 0xE000, 0xFFFF, 0x1_0000, 0x10_FFFF, 0xD7, 0x3A2, 0x386, 0x178, 0x1E9E, 0x460]
EDGES += [point + beside for first, last, _ in utf8.CAPITALS[1:] for point in (first, last) for beside in (-1, 0, 1)]

# L20: octets that make a text ill formed: none of a text, cut short, more than are needed, surrogates, too large.
FAULTS = [b"\x80", b"\xbf", b"\xfe", b"\xff", b"\xf8\x88\x80\x80\x80", b"\xc3", b"\xe1\x80", b"\xf0\x90\x80",
          b"\xc3.\x89", b"\xc0\x80", b"\xc1\x81", b"\xe0\x83\x89", b"\xe0\x9f\xbf", b"\xf0\x80\x83\x89",
          b"\xf0\x8f\xbf\xbf",
          b"\xed\xa0\x80", b"\xed\xbf\xbf", b"\xf4\x90\x80\x80", b"\xf5\x80\x80\x80"]

# L22: what labels in other scripts are made of, and code points that stand for no letter: the least and the largest, a
# full stop that is no dot, noncharacters, and an accent of its own.
SCRIPTS = ["éÉüÜøØßÿàÀ", "σΣςωΩάΆ", "жЖяЯёЁџЏ", "他们为什么", "नमस्ते", "\U00010400\U0001f600", "aAbB09-é", "xn-é"]
STRANGE = [0x80, 0x81, 0x3002, 0xFF0E, 0xFDD0, 0xFFFE, 0xFFFF, 0x1FFFF, 0x10FFFE, 0x10FFFF, 0x301, 0x200D, 0x130,
           0x212A]

# L7: labels whose form is about as long as it may be: how many times the letters may stand.
LABELS_AT_THE_LIMIT = [("é", 57), ("É", 57), ("他", 57), ("\x80", 59), ("\U0010ffff", 55), ("b", 63)]

# L23: what decodes to nothing: surrogates, past the last code point, sums larger than 32 and 64 bits, no digits, cut
# short. What cannot be typed: capitals, hyphens at the ends. And what is shown: at the ends of what there is.
CODES = [b"ib9b", b"zy0c", b"en32g", b"zzzzzzzz", b"9" * 13 + b"a", b"9" * 59, b"z" * 59, b"99999b", b"-abc", b"b",
         b"9c", b"a-b-z", b"dca", b"a-hea", b"--bga", b"--9fa", b"a", b"hb9b", b"0y0c", b"dn32g"]

# Times that messages and tables share, so that dates are equal, older and newer, and
# gaps fall on both sides of 35 days (A3).
MOMENTS = [0, 1, 999, 1000, 1001, 1000 + GAP_LIMIT - 1, 1000 + GAP_LIMIT, 1001 + GAP_LIMIT,
           1_510_062_830, 1_510_062_985, TIME_LIMIT - 1, TIME_LIMIT]

CLOSE_MOMENTS = [999, 1000, 1001]

# O7: attributes that are unknown and critical, such as are passed over, and pieces that are no attributes.
UNKNOWN = [b"x=1", b"type=1", b"Addr=x@y", b"ADDR=", b"KEYDATA=Zg==", b"key data=Zg==", b"Prefer-Encrypt=mutual",
           b"x==", b"a_=1", b"-=1", b"\xff=1", b"\r=1", b"addr\0=x@y"]
IGNORED = [b"_=", b"_x=1", b"_addr=x@y", b"_keydata=Zg==", b"_ =a=b"]
NO_ATTRIBUTE = [b"", b"", b" ", b"\t ", b"x", b"_x", b"=x", b" = ", b"addr", b"keydata", b"prefer-encrypt", b"x@y"]

# O8: key data that is Base64, and such as is not.
KEY_TEXTS = [b"", b"Zg==", b"Z g = =", b"Zm8=", b"Zm9v", b"Zm9vYg==", b"\tZm9v ", b"Zh==", b"Zm9=", b"Zg", b"Zg=",
             b"Zg===", b"Zg==Zm9v", b"=", b"====", b"Z===", b"Zm9v.", b"Zm9v\r", b"Zm9v\xff", b"Z-_v", b"Zm9v=",
             b"(c)Zm9v"]

# O9: what stands behind `prefer-encrypt=`.
PREFERENCES = [b"mutual", b"mutual", b"nopreference", b"Mutual", b"", b"="]

# O11: lines with many faults in few octets.
SHORT_LINES = [b"Autocrypt:x=\n", b"Autocrypt:\n", b"autocrypt:;\n", b"Autocrypt-Gossip:x=\n", b"Autocrypt-Gossip:\n",
               b"autocrypt-gossip:prefer-encrypt=\n", b"X:\n", b"Autocrypt:keydata=\n"]

LETTERS = b"ABCDEFGHIJKLMNOPQRSTUVWXYZabcdefghijklmnopqrstuvwxyz"
DIGITS = b"0123456789"
CONTROLS = bytes(octet for octet in list(range(32)) + [127] if octet != 9)
HIGH = bytes(range(128, 256))


class Cases:
    def __init__(self, seed: int) -> None:
        self.random = random.Random(seed)

    # Drawing by chance.

    def chance(self, share: float) -> bool:
        return self.random.random() < share

    def one(self, choices):
        return self.random.choice(choices)

    def some(self, alphabet: bytes, least: int, most: int) -> bytes:
        length = self.random.randint(least, most)
        return bytes(self.one(alphabet) for _ in range(length))

    def blank(self) -> bytes:
        return self.one([b"", b"", b" ", b"\t"])

    def near(self, limit: int) -> int:
        """A number at or beside a limit."""
        return max(0, limit + self.one([-1, 0, 0, 1]))

    def octets(self, most: int) -> bytes:
        """Any octets, up to a length; often none, one or as many as may be."""
        length = self.one([0, 1, most, self.random.randint(0, most), self.random.randint(0, most)])
        return self.random.randbytes(min(length, most))

    def mutate(self, octets: bytes) -> bytes:
        """One to three places changed: an octet flipped, deleted, inserted, doubled, swapped."""
        changed = bytearray(octets)
        for _ in range(self.random.randint(1, 3)):
            at = self.random.randint(0, len(changed))
            kind = self.random.randrange(8)
            if kind == 0 or at >= len(changed):
                changed.insert(at, self.random.randrange(256))
            elif kind == 1:
                changed[at] ^= 1 << self.random.randrange(8)
            elif kind == 2:
                changed[at] = self.random.randrange(256)
            elif kind == 3:
                del changed[at]
            elif kind == 4:
                changed.insert(at, changed[at])
            elif kind == 5:
                other = self.random.randrange(len(changed))
                changed[at], changed[other] = changed[other], changed[at]
            elif kind == 6:
                changed.insert(at, self.one(b" \t\r\n()\"\\;:,.=@<>-_+0\0\x7f"))
            else:
                # A run deleted or doubled.
                end = min(len(changed), at + self.random.randint(1, 8))
                changed[at:end] = changed[at:end] * self.one([0, 2])
        return bytes(changed)

    def sometimes_mutated(self, octets: bytes, share: float) -> bytes:
        return self.mutate(octets) if self.chance(share) else octets

    # Base64.

    def key(self) -> bytes:
        """A key argument: mostly 1 to 2,048 octets, both ends and beyond among them."""
        kind = self.random.randrange(20)
        if kind < 15:
            return self.random.randbytes(self.random.randint(1, 60))
        if kind == 15:
            return self.random.randbytes(self.random.randint(1, KEY_LIMIT))
        if kind == 16:
            return self.random.randbytes(self.near(KEY_LIMIT))
        if kind < 19:
            return self.random.randbytes(self.near(0))
        # All zero or all ones, which the unused bits and the ends of keys may hide.
        return self.one([b"\0", b"\xff"]) * self.random.randint(1, 5)

    def good_key(self) -> bytes:
        """A key of 1 to 2,048 octets."""
        key = self.key()
        return key[:KEY_LIMIT] if key != b"" else b"k"

    def base64_text(self) -> bytes:
        """Base64, with blanks anywhere, and damaged Base64."""
        octets = self.key() if self.chance(0.7) else self.octets(12)
        text = base64.encode(octets)
        kind = self.random.randrange(8)
        if kind == 0:
            # The unused bits of the last character before the padding.
            bare = text.rstrip(b"=")
            padding = text[len(bare):]
            text = bare[:-1] + bytes([self.one(base64.ALPHABET)]) + padding
        elif kind == 1:
            text = text.rstrip(b"=") + b"=" * self.random.randrange(5)
        elif kind == 2:
            text = self.mutate(text)
        elif kind == 3:
            text = self.some(base64.ALPHABET + b"= \t", 0, 12)
        return self.blanked(text) if self.chance(0.4) else text

    def blanked(self, text: bytes) -> bytes:
        """With spaces and tabs at a few places."""
        for _ in range(self.random.randint(1, 4)):
            at = self.random.randint(0, len(text))
            text = text[:at] + self.some(b" \t", 1, 2) + text[at:]
        return text

    # Comments, quoted strings, runs.

    def comment(self) -> bytes:
        """A readable comment."""
        depth = self.one([1, 1, 1, 2, 3, COMMENT_DEPTH - 1, COMMENT_DEPTH])
        return self.nested(depth)

    def nested(self, depth: int) -> bytes:
        """A comment of a given depth, with texts between its parentheses."""
        text = b""
        for _ in range(depth):
            # A neighbour must not be deeper than what stands beside it.
            beside = b"()" if text != b"" and self.chance(0.2) else b""
            text = b"(" + self.comment_run() + text + beside + self.comment_run() + b")"
        return text

    def comment_run(self) -> bytes:
        if self.chance(0.6):
            return b""
        return self.one([b"c", b" ", b"\t", b"\\(", b"\\)", b"\\\\", b'"', b"a b", b"@<>,;:.",
                         bytes([self.one(HIGH)]), b"\\" + bytes([self.one(HIGH)]), b"\\\t"])

    def comment_text(self) -> bytes:
        """Values for skipping from 0 and, where they open with a quote, for quoted strings."""
        if self.chance(0.3):
            return self.quoted_text()
        text = b""
        for _ in range(self.random.randint(0, 3)):
            text += self.one([b" ", b"\t", b"", self.comment()])
        kind = self.random.randrange(8)
        if kind == 0:
            text += self.nested(self.near(COMMENT_DEPTH))
        elif kind == 1:
            # A control octet, after a backslash or not.
            inner = self.one([b"", b"\\"]) + bytes([self.one(CONTROLS)])
            text += b"(" * self.random.randint(1, 3) + inner + b"))"
        elif kind == 2:
            # No end.
            text += self.comment()[:-1]
        elif kind == 3:
            text += b"(a" + b"\\"
        elif kind == 4:
            text = self.mutate(text)
        return text + self.one([b"", b"x", b" ", b")", b"\x01", b"\r\n ", b"a@b", bytes([self.one(HIGH)])])

    def quoted_string(self) -> bytes:
        """A readable quoted string."""
        text = b""
        for _ in range(self.random.randint(0, 3)):
            text += self.one([b"a", b" ", b"\t", b"\\\"", b"\\\\", b"(", b")", b"<@>,;:.", b"\\\t", b"b c",
                              bytes([self.one(HIGH)]), b"\\" + bytes([self.one(HIGH)])])
        return b'"' + text + b'"'

    def quoted_text(self) -> bytes:
        """A value whose first octet is a quote, readable as a quoted string or not."""
        text = self.quoted_string()
        kind = self.random.randrange(6)
        if kind == 0:
            text = text[:-1] + self.one([b"", b"\\"]) + bytes([self.one(CONTROLS)]) + b'"'
        elif kind == 1:
            text = text[:-1] + self.one([b"", b"\\"])
        elif kind == 2:
            text = b'"' + self.mutate(text[1:])
        return text + self.one([b"", b"x", b'"', b" <a@b>"])

    def runs(self) -> bytes:
        """Runs of digits, letters, atom octets and others, one after the other."""
        text = b""
        for _ in range(self.random.randint(0, 4)):
            text += self.one([self.some(DIGITS, 1, 4), self.some(LETTERS, 1, 4),
                              self.some(ATOM_SIGNS, 1, 2), self.some(HIGH, 1, 2),
                              bytes([self.random.randrange(256)])])
        return text

    def filler(self) -> bytes:
        """What may stand between tokens: blanks, comments or nothing."""
        kind = self.random.randrange(12)
        if kind < 6:
            return b" "
        if kind < 9:
            return b""
        if kind == 9:
            return self.some(b" \t", 1, 3)
        return self.some(b" \t", 0, 1) + self.comment() + self.some(b" \t", 0, 1)

    # Dates.

    def moment(self) -> int:
        """A time from 0 to the limit; often one that others share."""
        if self.chance(0.5):
            return self.one(CLOSE_MOMENTS)
        return self.one(MOMENTS) if self.chance(0.7) else self.random.randint(0, TIME_LIMIT)

    def close_moment(self) -> int:
        """A time that is likely to be equal to another one, or just beside it."""
        return self.one(CLOSE_MOMENTS) if self.chance(0.6) else self.moment()

    def receipt(self) -> int:
        """A receipt time, sometimes above the limit."""
        if self.chance(0.1):
            return self.one([TIME_LIMIT, TIME_LIMIT + 1, TIME_LIMIT + 2, (1 << 64) - 1])
        return self.moment() if self.chance(0.5) else self.random.randint(1_600_000_000, TIME_LIMIT)

    def any_case(self, text: bytes) -> bytes:
        return bytes(octet ^ 32 if octet in LETTERS and self.chance(0.5) else octet for octet in text)

    def name(self, text: bytes) -> bytes:
        return self.one([text.title(), text, text.upper(), self.any_case(text)])

    def date_of(self, instant: int) -> list[bytes]:
        """The tokens of a date that reads as the given seconds."""
        zone, east = b"+0000", 0
        if self.chance(0.5):
            minutes = self.one([0, 1, 59, 60, 345, self.random.randint(0, 99 * 60 + 59)])
            if instant >= DAY * 5 and self.chance(0.5):
                zone, east = b"-%02d%02d" % divmod(minutes, 60), -minutes * MINUTE
            else:
                zone, east = b"+%02d%02d" % divmod(minutes, 60), minutes * MINUTE
        elif self.chance(0.5):
            letters = self.one(list(ZONE_HOURS) + [b"z", b"utc", b"cet", b"a", b"anything"])
            if instant >= DAY:
                zone, east = self.name(letters), ZONE_HOURS.get(letters, 0) * HOUR
        local = instant + east
        days, rest = divmod(local, DAY)
        hour, rest = divmod(rest, HOUR)
        minute, second = divmod(rest, MINUTE)
        # 400 years have 146,097 days.
        cycles, days = divmod(days, 146_097)
        year, month = 1970 + 400 * cycles, 1
        while days >= days_in_year(year):
            days -= days_in_year(year)
            year += 1
        while days >= days_in_month(year, month):
            days -= days_in_month(year, month)
            month += 1
        tokens = [self.one([b"%d", b"%02d"]) % (days + 1), self.name(MONTH_NAMES[month - 1])]
        years = [b"%04d" % year]
        if 1970 <= year <= 1999:
            years.append(b"%02d" % (year - 1900))
        if 2000 <= year <= 2049:
            years.append(b"%02d" % (year - 2000))
        if 1970 <= year <= 2899:
            years.append(b"%03d" % (year - 1900))
        tokens.append(self.one(years))
        tokens += [b"%02d" % hour, b":", b"%02d" % minute]
        if second != 0 or self.chance(0.7):
            tokens += [b":", b"%02d" % second]
        tokens.append(zone)
        if self.chance(0.6):
            tokens = [self.name(self.one(DAY_NAMES)), b","] + tokens
        return tokens

    def edge_date(self) -> list[bytes]:
        """The tokens of a date with one part at, beside or beyond its limit."""
        day, month, year = b"15", b"Jun", b"2000"
        hour, minute, second, zone = b"12", b"30", b"30", b"+0100"
        colon = b":"
        part = self.random.randrange(10)
        if part == 0:
            # The last days of every month, in leap years and others.
            month = self.name(self.one(MONTH_NAMES))
            year = self.one([b"1900", b"1904", b"1970", b"2000", b"2001", b"2004", b"2100", b"2400",
                             b"00", b"72", b"000", b"100", b"9999"])
            day = self.one([b"28", b"29", b"30", b"31", b"32", b"1", b"01", b"0", b"00", b"99", b"001"])
        elif part == 1:
            hour = self.one([b"00", b"23", b"24", b"0", b"9", b"012", b"99"])
        elif part == 2:
            minute = self.one([b"00", b"59", b"60", b"0", b"9", b"012", b"99"])
        elif part == 3:
            second = self.one([b"00", b"59", b"60", b"61", b"0", b"9", b"012", b"99"])
        elif part == 4:
            year = self.one([b"0", b"5", b"00", b"49", b"50", b"69", b"70", b"99", b"000", b"069", b"070",
                             b"100", b"999", b"0000", b"1899", b"1900", b"1969", b"1970", b"9999",
                             b"10000", b"01999"])
        elif part == 5:
            zone = self.one([b"+0000", b"-0000", b"+0059", b"+0060", b"-0059", b"-0060", b"+9959",
                             b"-9959", b"+9960", b"+100", b"+01000", b"+", b"-", b"+ 0100", b"0100",
                             b"--0100"])
        elif part == 6:
            zone = self.one(list(ZONE_HOURS) + [b"Z", b"UTC", b"EST5EDT", b"GMT+0100", b"G\xc3T", b"J"])
            zone = self.any_case(zone)
        elif part == 7:
            month = self.one([b"Juni", b"Ju", b"6", b"Jux", b"J\xc3n", b"JUN", b"jun"])
        elif part == 8:
            colon = self.one([b",", b".", b"::", b"", b":"])
        else:
            # Around the start and the end of time.
            day, month, year = self.one([(b"1", b"Jan", b"1970"), (b"31", b"Dec", b"1969"),
                                         (b"31", b"Dec", b"9999")])
            hour, minute, second = self.one([(b"00", b"00", b"00"), (b"00", b"30", b"00"),
                                             (b"23", b"59", b"59"), (b"23", b"59", b"60")])
            zone = self.one([b"+0000", b"+0030", b"-0030", b"+0031", b"+0029", b"GMT", b"-0001"])
        tokens = [day, month, year, hour, self.one([b":", colon]), minute]
        if self.chance(0.8):
            tokens += [self.one([b":", colon]), second]
        tokens.append(zone)
        if self.chance(0.4):
            names = [self.name(self.one(DAY_NAMES)), b"Monday", b"Mo", b"Jun", b"1", b"M\xc3n"]
            tokens = [self.one(names[:1] * 4 + names), self.one([b",", b",", b",", b"", b",,"])] + tokens
        return tokens

    def date_value(self) -> bytes:
        """The value of a Date field, unfolded."""
        kind = self.random.randrange(10)
        if kind == 0:
            return self.bad_date()
        tokens = self.edge_date() if kind < 5 else self.date_of(self.moment())
        text = self.spaced(tokens)
        if kind == 9:
            text = self.mutate(text)
        if kind == 8 and self.chance(0.5):
            text += self.comment_text()
        return text

    def bad_date(self) -> bytes:
        """A value that is no date, as a rule."""
        good = self.spaced(self.date_of(self.moment()))
        return self.one([b"", b" ", b"now", b"0", b"()", b"1970-01-01T00:00:00Z", b"Thu, ",
                         b"Thu Jan  1 00:00:00 1970", self.comment_text(), good + b" x", good + good,
                         good.replace(b":", b"."), good.replace(b":", b","), good.replace(b":", b" "),
                         b"Mon " + good, b"Mon, " + good, good[:-1], good[1:]])

    def spaced(self, tokens: list[bytes]) -> bytes:
        """The tokens with fillers between them; two runs of digits seldom touch."""
        text = self.filler()
        for token in tokens:
            touching = text != b"" and text[-1] in DIGITS and token[:1].isdigit()
            between = self.filler()
            if touching and between == b"" and not self.chance(0.05):
                between = b" "
            text += between + token
        return text + self.filler()

    def dates(self) -> list[bytes]:
        """The values of all Date fields of a block."""
        return [self.date_value() for _ in range(self.one([0, 1, 1, 1, 1, 1, 2]))]

    # Addresses and lists.

    def peer(self) -> bytes:
        """One of the few, in any spelling; seldom someone else with nearly the same name."""
        address = self.one(ASCII_PEERS if self.chance(0.5) else ACCENTED_PEERS + DOMAIN_PEERS)
        if self.chance(0.6):
            return address
        return self.near_miss(address) if self.chance(0.3) else self.spelled(address)

    def respelled(self, address: bytes) -> bytes:
        """An address that stands elsewhere: mostly as it is there, else in another spelling or nearly the same."""
        if self.chance(0.6) or address.count(b"@") != 1:
            return address
        return self.near_miss(address) if self.chance(0.06) else self.spelled(address)

    def someone(self) -> bytes:
        """Mostly one of the few; seldom anybody, with a domain in another script."""
        return self.international() if self.chance(0.06) else self.peer()

    def spelled(self, address: bytes) -> bytes:
        """The address with letters in their other case, wherever they have one by L21, and labels coded or not by L22;
        so it stays the same."""
        local, at, domain = address.partition(b"@")
        points = utf8.points(local)
        labels = b".".join(self.spelled_label(label) for label in domain.split(b"."))
        if points is None:
            return self.any_case(local) + at + labels
        return utf8.encoded([self.other_case(point) for point in points]) + at + labels

    def spelled_label(self, label: bytes) -> bytes:
        """A label of the same form; the label itself where it has none."""
        form = label_form(label)
        if form is None:
            return label
        text = shown_label(form)
        if text.isascii() or self.chance(0.4):
            return self.any_case(form)
        return utf8.encoded([self.other_case(point) for point in utf8.points(text)])

    def other_case(self, point: int) -> int:
        return self.one([point, CAPITALS.get(point, utf8.small(point))])

    def near_label(self, domain: bytes) -> bytes:
        """The domain with one letter of NEAR_MISSES in the place of another, if some label has such a letter."""
        labels = [shown_label(label_form(label) or label) for label in domain.split(b".")]
        places = [(at, place) for at, label in enumerate(labels)
                  for place, point in enumerate(utf8.points(label) or []) if point in NEAR_MISSES]
        if not places:
            return domain
        at, place = self.one(places)
        points = utf8.points(labels[at])
        points[place] = NEAR_MISSES[points[place]]
        labels[at] = utf8.encoded(points)
        return b".".join(labels)

    def near_miss(self, address: bytes) -> bytes:
        """Another address that looks much like the given one: by a letter of NEAR_MISSES, or by a fault."""
        local, at, domain = address.partition(b"@")
        if self.chance(0.25):
            near = local + at + self.near_label(domain)
            if is_plain(near) and canonical(near) != canonical(address):
                return near
        points = utf8.points(local)
        if points is None:
            # L21: the capitals beyond ASCII stay here, and what the longer map would make of them is another address.
            return local.replace(b"\xc3\x89", b"\xc3\xa9") + at + domain
        places = [place for place, point in enumerate(points) if point in NEAR_MISSES]
        if places and self.chance(0.75):
            place = self.one(places)
            points[place] = NEAR_MISSES[points[place]]
            return utf8.encoded(points) + at + domain
        return self.faulty(self.spelled(address))

    def faulty(self, address: bytes) -> bytes:
        """The address with a fault somewhere in its local part, which is no more well formed, but still plain."""
        local, at, domain = address.partition(b"@")
        points = utf8.points(local) or []
        cut = len(utf8.encoded(points[:self.random.randint(0, len(points))]))
        return local[:cut] + self.one(FAULTS) + local[cut:] + at + domain

    def accented(self) -> bytes:
        """A plain address of code points at the edges of L20 and L21, sometimes with a fault."""
        atoms = []
        for _ in range(self.random.randint(1, 2)):
            atoms.append([self.one([self.one(EDGES), self.one(EDGES), self.one(list(CAPITALS)), self.one(LETTERS),
                                    self.one(list(CAPITALS.values())), self.one(list(NEAR_MISSES.values()))])
                          for _ in range(self.random.randint(1, 6))])
        address = b".".join(utf8.encoded(points) for points in atoms) + b"@" + self.any_case(self.one([b"b", b"x.y"]))
        return self.faulty(address) if self.chance(0.3) else address

    # Domains in other scripts.

    def script_label(self) -> bytes:
        """A label of one script, or of strange code points; as a rule one that has a form."""
        if self.chance(0.2):
            points = [self.one(STRANGE + EDGES) for _ in range(self.random.randint(1, 4))]
        else:
            script = self.one(SCRIPTS)
            points = [ord(self.one(script)) for _ in range(self.random.randint(1, 6))]
        return utf8.encoded(points)

    def coded_label(self) -> bytes:
        """A label that opens with `xn--`: a code, one that was changed, or none."""
        kind = self.random.randrange(6)
        if kind == 0:
            code = self.one(CODES)
        elif kind == 1:
            code = self.some(punycode.DIGITS, 1, 8)
        elif kind == 2:
            # Anything that can be coded, surrogates, hyphens at the ends and what lies above U+10FFFF among it.
            code = punycode.encode([self.one([self.random.randrange(0x80, 0x500), self.random.randrange(0x80, 0x120000),
                                              self.one([0x2D, 0x41, 0x61, 0xD800, 0xDFFF, 0xC9, 0xE9])])
                                    for _ in range(self.one([1, 2, 4]))])
        else:
            code = punycode.encode([utf8.small(point) for point in utf8.points(self.script_label())])
            if kind == 3:
                at = self.random.randrange(len(code))
                code = code[:at] + self.some(punycode.DIGITS + b"-", 0, 2) + code[at + 1:]
        return self.any_case(PREFIX + code)

    def limit_label(self) -> bytes:
        """A label whose form is about as long as it may be."""
        letter, many = self.one(LABELS_AT_THE_LIMIT)
        if self.chance(0.3):
            # L22: the form of one letter of this kind among others in ASCII.
            rest = LABEL_LIMIT - len(label_form(b"b" + letter.encode())) + 1
            return b"b" * self.near(rest) + letter.encode()
        return letter.encode() * self.near(many)

    def bad_label(self) -> bytes:
        """A label that is none: ill formed, hyphens at its ends, other signs, or nothing."""
        label = self.script_label()
        at = self.random.randint(0, len(label))
        return self.one([label[:at] + self.one(FAULTS) + label[at:], label[:-1], b"-" + label, label + b"-",
                         label + b"_", label + b" ", b"", PREFIX, b"_" + label, label + b"@" + label])

    def international(self) -> bytes:
        """An address with labels in other scripts, coded or not; plain as a rule."""
        if self.chance(0.15):
            return self.grown()
        labels = []
        for _ in range(self.one([1, 1, 2, 2, 3])):
            kind = self.random.randrange(12)
            if kind < 5:
                labels.append(self.script_label())
            elif kind < 8:
                labels.append(self.coded_label())
            elif kind == 8:
                labels.append(self.limit_label())
            elif kind == 9 and self.chance(0.6):
                labels.append(self.bad_label())
            else:
                labels.append(self.any_case(self.one([b"b", b"example", b"x-y"])))
        local = self.one([b"a", b"A", "É".encode(), "Ж.σ".encode(), b"\xc3\xff", b"a" * self.near(64)])
        return local + b"@" + b".".join(labels)

    def grown(self) -> bytes:
        """An address whose form is about as long as it may be, and its own length another (L6)."""
        label = self.one(["é", "éa", "É" * 20, "他们", "\U0010ffff" * 55, "é" * 57, "b" * 63, "xn--9ca"]).encode()
        labels = [label] * (self.random.randint(190, 252) // (len(label_form(label)) + 1))
        if self.chance(0.3):
            labels[self.random.randrange(len(labels))] = self.any_case(label_form(label))
        missing = ADDRESS_LIMIT - sum(len(label_form(one)) + 1 for one in labels)
        return b"a" * self.near(missing) + b"@" + b".".join(labels)

    def edge_address(self) -> bytes:
        """An address at or beside one of its limits."""
        kind = self.random.randrange(5)
        if kind == 4:
            # As many letters of two octets as there is room for, and one octet less or more.
            return "ЯÉЀ".encode() * 10 + self.one([b"", b"x", "é".encode(), "Éx".encode(), "éЯ".encode()]) + b"@b"
        if kind == 0:
            return b"a" * self.near(64) + b"@b.example"
        if kind == 1:
            return b"a@x." + b"b" * self.near(63) + b".example"
        if kind == 2:
            # Three labels of 63 and their dots are 192 octets with the `@`.
            return b"a" * (self.near(254) - 192) + b"@" + b".".join([b"b" * 63] * 3)
        return self.one([b"a@b", b"@b", b"a@", b"@", b"", b"a", b"a.b@c", b"a..b@c", b".a@b", b"a.@b",
                         b"a@b.", b"a@.b", b"a@b..c", b"a@-b", b"a@b-", b"a@b-c", b"a@b--c", b"a@b_c",
                         b"1@2", b"\xff@b", b"a@\xc3\xa9", b'"a"@b', b"a@[1.2.3.4]", b"a b@c", b"a@b c",
                         b"a@b@c", b"<a@b>", b" a@b", b"a@b ", b"a(c)@b", b"a@b\r", b"\x01@b"])

    def address(self) -> bytes:
        """An address argument: one of the few, any plain one, at a limit, or mutated."""
        kind = self.random.randrange(16)
        if kind < 4:
            return self.peer()
        if kind >= 12:
            return self.sometimes_mutated(self.international(), 0.1)
        if kind >= 10:
            return self.accented()
        if kind < 6:
            local = b".".join(self.some(LETTERS + DIGITS + ATOM_SIGNS + HIGH, 1, 6)
                              for _ in range(self.random.randint(1, 3)))
            domain = b".".join(self.some(LETTERS + DIGITS, 1, 3) + self.some(b"-", 0, 2)
                               + self.some(LETTERS + DIGITS, 1, 3)
                               for _ in range(self.random.randint(1, 3)))
            return local + b"@" + domain
        if kind < 9:
            return self.edge_address()
        return self.mutate(self.peer())

    def phrase(self) -> bytes:
        text = b""
        for _ in range(self.random.randint(1, 3)):
            text += self.one([b"Bob", b".", b"B.", self.quoted_string(), self.some(HIGH, 1, 3),
                              self.some(LETTERS + ATOM_SIGNS, 1, 4)])
            text += self.filler()
        return text

    def list_place(self, address: bytes) -> bytes:
        """An address, bare or in angle brackets with a phrase or without, and fillers around it (L9)."""
        if self.chance(0.5):
            return self.filler() + address + self.filler()
        words = self.phrase() if self.chance(0.7) else b""
        return (self.filler() + words + b"<" + self.filler() + address + self.filler() + b">"
                + self.filler())

    def list_of(self, addresses: list[bytes]) -> bytes:
        """A list of the given addresses, some of them in groups."""
        places = []
        at = 0
        while at < len(addresses):
            if self.chance(0.15):
                end = at + self.random.randint(1, 3)
                inner = b",".join(self.list_place(address) for address in addresses[at:end])
                places.append(self.filler() + self.phrase() + b":" + inner + b";" + self.filler())
                at = end
            else:
                places.append(self.list_place(addresses[at]))
                at += 1
            if self.chance(0.05):
                places.append(self.phrase() + b":" + self.filler() + b";" + self.filler())
        return b",".join(places)

    def bad_list(self) -> bytes:
        """A list that is unreadable, or nearly so."""
        return self.one([
            b"", b" ", b"(c)", b",", b"a@b,", b",a@b", b"a@b,,c@d", b"a@b,(c)", b"g:;", b"g: (c) ;",
            b"g:a@b,;", b"g:,;", b"g:a@b", b"g:h:a@b;;", b"g:; a@b", b":a@b;", b"Bob", b"Bob a@b",
            b"a@b Bob", b"<a@b> Bob", b"<>", b"Bob <>", b"<@r:a@b>", b'"a"@b', b"a@[1.2.3.4]",
            b"<a@b", b"a@b>", b"[x] <a@b>", b"x@y <a@b>", b"a@b\r\n", b"a@b,\r\n c@d", b"a @b",
            b"a. b@c", b"<a@b><c@d>", b"a@b;", b". <a@b>", b'"a""b"c<x@y>', b"a@b (" , b"a@b )",
            b'"a <a@b>', b"Bob \\ <a@b>", b"a@b c@d", b"g:<a@b>;", b"g:<a@b>; (c)", b"g (c) : a@b",
            b"(" * self.near(COMMENT_DEPTH) + b")" * COMMENT_DEPTH + b"a@b",
            b"Bob " + self.nested(self.near(COMMENT_DEPTH)) + b"<a@b>",
            b"a@b" + self.comment_text(), self.quoted_text() + b" <a@b>",
            b"<" + self.comment_text() + b"a@b>", b"<a@b>" + self.comment_text(),
            b"g:" + self.comment_text() + b";", b"g:a@b;" + self.comment_text(),
            b"a@b" + bytes([self.random.randrange(256)]), b"x" + bytes([self.random.randrange(256)]) + b" <a@b>",
        ])

    def address_list(self) -> bytes:
        """The value of a To, Cc or Reply-To field, unfolded."""
        kind = self.random.randrange(10)
        if kind == 0:
            return self.bad_list()
        count = self.one([1, 1, 1, 2, 2, 3, 4, 6])
        if kind == 1:
            return self.list_of([self.address() for _ in range(count)])
        text = self.list_of([self.someone() for _ in range(count)])
        return self.mutate(text) if kind == 2 else text

    def recipients(self) -> bytes:
        """A recipient argument; 99 to 101 addresses among them."""
        if self.chance(0.05):
            count = self.near(RECIPIENTS_LIMIT)
            addresses = [self.peer()] * count if self.chance(0.5) else [self.peer() for _ in range(count)]
            return b",".join(addresses) if self.chance(0.5) else self.list_of(addresses)
        return self.address_list()

    def list_place_number(self) -> int:
        """A list place from 0, past the list too."""
        return self.one([0, 0, 0, 1, 1, 2, 3, 5, RECIPIENTS_LIMIT - 1, RECIPIENTS_LIMIT, 1 << 32,
                         (1 << 64) - 1])

    # Fields.

    def field_value(self, address: bytes | None = None) -> bytes:
        """The value of an Autocrypt or Autocrypt-Gossip field, unfolded."""
        if address is None:
            address = self.someone()
        pieces = [(b"addr", address)]
        if self.chance(0.4):
            value = self.one([b"mutual", b"mutual", b"mutual", b"nopreference", b"Mutual", b"", b"mutual x"])
            pieces.append((b"prefer-encrypt", value))
        if self.chance(0.2):
            pieces.append((self.one([b"_", b"_x", b"_type", b"_addr", b"_k k"]), self.one([b"", b"1", b"a=b"])))
        self.random.shuffle(pieces)
        key = base64.encode(self.good_key())
        pieces.append((b"keydata", self.blanked(key) if self.chance(0.3) else key))
        kind = self.random.randrange(30)
        if kind == 0:
            pieces.insert(self.random.randrange(len(pieces)),
                          (self.one([b"type", b"Addr", b"x", b"KEYDATA", b"key data"]), b"1"))
        elif kind == 1:
            pieces.append(self.one(pieces))
        elif kind == 2:
            pieces.insert(0, self.one(pieces))
        elif kind == 3:
            pieces.remove(self.one(pieces))
        elif kind == 4:
            self.random.shuffle(pieces)
        elif kind == 5:
            pieces[-1] = (b"keydata", self.base64_text())
        elif kind == 6:
            pieces = [(name, self.address() if name == b"addr" else value) for name, value in pieces]
        elif kind == 7:
            pieces.insert(self.random.randrange(len(pieces)), (self.one([b"", b" "]), b"1"))
        elif kind == 8:
            pieces[-1] = (b"keydata", base64.encode(self.random.randbytes(self.near(KEY_LIMIT))))
        text = b";".join(self.blank() + name + self.blank() + b"=" + self.blank() + value + self.blank()
                         for name, value in pieces)
        if kind == 9:
            text = self.one([text + b";", text + b"; ", b";" + text, b"", text + b"; _x=1",
                             text.replace(b";", b"; _x;"), text.replace(b";", b";;")])
        elif kind == 10:
            text = self.mutate(text)
        return text

    def field_values(self, sender: bytes) -> list[bytes]:
        """The values of all Autocrypt fields of a message."""
        values = []
        for _ in range(self.one([0, 1, 1, 1, 1, 2])):
            values.append(self.field_value(self.respelled(sender) if self.chance(0.9) else None))
        if values and self.chance(0.05):
            values.append(values[0])
        return values

    # Blocks.

    def ending(self) -> bytes:
        return self.one([b"\r\n", b"\r\n", b"\n"])

    def folded(self, value: bytes) -> bytes:
        """The value with line endings put in before some of its blanks."""
        text = bytearray()
        for octet in value:
            if octet in b" \t" and self.chance(0.1):
                text += self.ending()
            text.append(octet)
        return bytes(text)

    def field(self, name: bytes, value: bytes) -> bytes:
        name = self.any_case(name) if self.chance(0.2) else name
        if self.chance(0.8):
            value = b" " + value
        return name + b":" + (self.folded(value) if self.chance(0.4) else value) + self.ending()

    def plain_field(self) -> bytes:
        """A field that no call looks at (B12)."""
        name = self.one([b"Subject", b"X", b"!#", b"Message-ID", b"Bcc", b"Sender", b"Resent-To",
                         self.some(bytes(octet for octet in range(33, 127) if octet != 58), 1, 8)])
        value = self.one([b"x", b"", b"a: b", b"\r", b"\x00\x01\xff", self.peer(), b" \t ", b"b\rc",
                          self.octets(20).replace(b"\n", b"")])
        if name.lower() in (b"from", b"to", b"cc", b"date", b"reply-to"):
            name += b"-x"
        return self.field(name, value)

    def bad_line(self) -> bytes:
        """A line that makes a block unreadable (B8), unless it continues a field."""
        return self.one([b"no field", b":", b": x", b" :x", b"A :b", b"\r", b"A\r:b", b"\xef\xbb\xbfA:b",
                         b"From a@b Mon Jan  1 00:00:00 1970", b"\x7f:x", b"A\x00:x", b"\xff:x", b"A"])

    def tail(self, block: bytes) -> bytes:
        """The block with the end of it varied: no ending, an empty line, a body."""
        kind = self.random.randrange(8)
        if kind == 0:
            return block.rstrip(b"\r\n")
        if kind == 1:
            return block + self.ending()
        if kind == 2:
            return block + self.ending() + self.octets(40)
        if kind == 3 and self.chance(0.3):
            return block + b"\r"
        return block

    def sized(self, block: bytes) -> bytes:
        """The block filled up to about the limit, with a long field or a body."""
        missing = self.near(BLOCK_LIMIT) - len(block)
        if missing < 10:
            return block
        if self.chance(0.5):
            return block + b"\n" + b"x" * (missing - 1)
        return b"X:" + b"y" * (missing - 3) + b"\n" + block

    def header_block(self) -> bytes:
        """Any block."""
        lines = []
        for _ in range(self.random.randint(0, 5)):
            kind = self.random.randrange(6)
            if kind == 0:
                lines.append(self.field(b"To", self.address_list()))
            elif kind == 1:
                lines.append(self.field(b"Date", self.date_value()))
            elif kind == 2:
                lines.append(self.field(b"Autocrypt", self.field_value()))
            else:
                lines.append(self.plain_field())
        kind = self.random.randrange(12)
        if kind == 0:
            lines.insert(self.random.randint(0, len(lines)), self.bad_line() + self.ending())
        elif kind == 1:
            lines.insert(0, self.one([b" ", b"\t", b" A:b"]) + self.ending())
        elif kind == 2:
            lines.insert(self.random.randint(0, len(lines)), self.ending())
        elif kind == 3:
            lines.insert(self.random.randint(0, len(lines)), self.one([b" ", b"\t \t"]) + self.ending())
        block = self.tail(b"".join(lines))
        if kind in (4, 5):
            block = self.mutate(block)
        return self.sized(block) if self.chance(0.03) else block

    def content_type(self) -> bytes:
        """The value of a Content-Type field, unfolded."""
        report = self.any_case(b"multipart/report") if self.chance(0.5) else b"multipart/report"
        return self.one([b"text/plain", b"multipart/mixed; x=y", b"multipart/encrypted", b"",
                         report, b" \t" + report, report + b";a=b", report + b" ", report + b"\t",
                         report + b"(c)", report + b"s", report + b"\r", b"(c) " + report,
                         report[:-1], report + bytes([self.random.randrange(256)]), self.mutate(report)])

    # Tables.

    def entry(self, address: bytes) -> Entry:
        entry = Entry(address)
        if self.chance(0.8):
            entry.last_seen = self.close_moment()
            if self.chance(0.7):
                earlier = [moment for moment in CLOSE_MOMENTS + MOMENTS if moment <= entry.last_seen]
                entry.autocrypt_timestamp = self.one(earlier)
                if entry.last_seen >= GAP_LIMIT and self.chance(0.4):
                    gap = self.near(GAP_LIMIT)
                    entry.autocrypt_timestamp = max(0, entry.last_seen - gap)
                entry.direct_key = self.good_key()
                entry.mutual = self.chance(0.6)
        if self.chance(0.6):
            entry.gossip_timestamp = self.close_moment()
            entry.gossip_key = self.good_key()
        return entry

    def held(self) -> list[Entry | None]:
        """The entries of a sound table, some of its slots free."""
        addresses = self.known()
        if self.chance(0.01):
            size = self.one([SLOTS_LIMIT - 1, SLOTS_LIMIT])
        else:
            size = self.one([1, 1, 2, 3, 4, 6, 8, 10, 12, 13, 14])
        full = self.chance(0.3)
        held: list[Entry | None] = []
        for place in range(size):
            if not addresses:
                addresses = [b"n%d@n" % place]
            if full or self.chance(0.6):
                held.append(self.entry(addresses.pop()))
            else:
                held.append(None)
        return held

    def known(self) -> list[bytes]:
        """Canonical addresses for the slots of a table, in any order: the few, sometimes with a near miss of one."""
        near = canonical(self.near_miss(self.one(2 * ACCENTED_PEERS + DOMAIN_PEERS)))
        addresses = PEERS + [near] if self.chance(0.9) and is_canonical(near) else list(PEERS)
        self.random.shuffle(addresses)
        return addresses

    def sound_table(self) -> bytes:
        return table_of(self.held())

    # Tables of the old canonical form (T16).

    def old_spellings(self, form: bytes, many: int) -> list[bytes]:
        """Spellings of one canonical form without an ASCII capital, so many or as many as there are, in any order."""
        local, at, domain = form.partition(b"@")
        points = utf8.points(local)
        spellings = [[]]
        for point in points or []:
            cases = {point, CAPITALS.get(point, point)} if point >= 0x80 else {point}
            spellings = [spelling + [case] for spelling in spellings for case in sorted(cases)]
            self.random.shuffle(spellings)
            del spellings[many:]
        return [form] if points is None else [utf8.encoded(spelling) + at + domain for spelling in spellings]

    def old_entry(self, address: bytes, moment: int) -> Entry:
        """An entry with times at the given moment or a second later, so that many are equal; each may be absent."""
        entry = Entry(address)
        if self.chance(0.1):
            return entry
        if self.chance(0.75):
            entry.last_seen = moment + self.one([0, 0, 1])
            if self.chance(0.75):
                entry.autocrypt_timestamp = min(moment + self.one([0, 0, 1]), entry.last_seen)
                entry.direct_key, entry.mutual = self.good_key(), self.chance(0.5)
        if self.chance(0.6):
            entry.gossip_timestamp, entry.gossip_key = moment + self.one([0, 0, 1]), self.good_key()
        return entry

    def old_held(self) -> list[Entry | None]:
        """The entries of a table that is sound by the old rule: spellings of a few forms, others between, and gaps."""
        moment = self.one([0, 0, 1000, TIME_LIMIT - 1])
        if self.chance(0.004):
            # All slots of the longest table: one group, or some.
            forms = self.one([["àáâãäåæç@x".encode()], ["éв%dа@x".encode() % place for place in range(32)]])
            addresses = [one for form in forms for one in self.old_spellings(form, SLOTS_LIMIT // len(forms))]
        else:
            forms = self.random.sample(ACCENTED_PEERS + DOMAIN_PEERS, self.one([1, 1, 2, 3]))
            addresses = [one for form in forms for one in self.old_spellings(form, self.one([1, 2, 2, 3, 3, 4, 5]))]
            addresses += self.random.sample(ASCII_PEERS, self.one([0, 1, 2]))
        self.random.shuffle(addresses)
        tied = self.chance(0.7)
        held: list[Entry | None] = []
        for address in addresses:
            held.append(self.old_entry(address, moment) if tied else self.entry(address))
        for _ in range(self.one([0, 0, 1, 2, 4])):
            if len(held) < SLOTS_LIMIT:
                held.insert(self.random.randint(0, len(held)), None)
        return held

    def old_table(self) -> bytes:
        return table_of(self.old_held())

    def conversion(self) -> bytes:
        """A table for `convert`: mostly one that is sound by the old rule, with groups in it."""
        octets = self.old_table()
        kind = self.random.randrange(20)
        if kind == 0:
            # Of a wrong length.
            return self.one([b"", b"\0", octets[:-1], octets + b"\0", octets[:self.random.randrange(len(octets))],
                             octets.ljust((SLOTS_LIMIT + 1) * SLOT, b"\0")])
        at = self.random.randrange(len(octets) // SLOT) * SLOT
        if kind in (1, 2):
            # Broken, as a rule by either rule.
            return octets[:at] + self.broken_slot() + octets[at + SLOT:]
        if kind == 3:
            # An ASCII capital, or a domain in another script, which neither rule has; here and there beside one that is
            # broken.
            capital = self.entry(self.one([b"Alice@a.example", b"x@Y", "éVa@f.example".encode(), "a@é".encode(),
                                           "ÉVA@f.example".encode(), b"\xc3\x89V\xff@k.example",
                                           "dora@bücher.example".encode(), b"dora@XN--bcher-kva.example"]))
            octets = octets[:at] + slot_of(capital) + octets[at + SLOT:]
            return octets + self.broken_slot() if self.chance(0.3) else octets
        if kind == 4:
            # One slot twice: one spelling, whether it is canonical or not.
            return (octets + octets[at:at + SLOT])[-SLOTS_LIMIT * SLOT:]
        if kind in (5, 6):
            # T19: sound already.
            return self.sound_table()
        return octets

    def broken_slot(self) -> bytes:
        """A slot that breaks one condition of soundness (T8), as a rule exactly one."""
        entry = self.entry(self.one(PEERS))
        kind = self.random.randrange(17)
        if kind == 0:
            entry.address = self.address()[:256]
        elif kind == 15:
            # T20: a spelling of the old form; in one of a few cases it is the canonical one.
            entry.address = self.one(self.old_spellings(self.one(ACCENTED_PEERS), 8))
        elif kind == 16:
            # T8.2: a domain in another script as it is typed, which neither rule has; a code is canonical.
            entry.address = self.one([self.spelled(self.one(DOMAIN_PEERS)), self.international()[:256]])
        elif kind == 12:
            # Mutual without a direct key.
            entry = Entry(entry.address, entry.last_seen, mutual=True)
        elif kind == 13:
            # A direct key at 0 without last seen.
            entry = Entry(entry.address, None, 0, self.good_key(), self.chance(0.5))
        slot = bytearray(slot_of(entry))
        if kind == 1:
            slot[0:2] = self.one([b"\0\0", b"\x41\x32", b"\x31\x41", b"\x41\0", self.random.randbytes(2)])
        elif kind == 2:
            slot[2:4] = self.one([0, 254, 255, 256, 257, 65535, len(entry.address) - 1,
                                  len(entry.address) + 1]).to_bytes(2, "little")
        elif kind == 3:
            slot[BITS_AT] ^= 1 << self.random.randrange(8)
        elif kind == 4:
            slot[self.one([5, 6, 7, 36, 37, 38, 39])] ^= 1 << self.random.randrange(8)
        elif kind == 5:
            at = self.one([8, 16, 24])
            slot[at:at + 8] = self.one([0, 1, TIME_LIMIT, TIME_LIMIT + 1, (1 << 64) - 1]).to_bytes(8, "little")
        elif kind == 6:
            at = self.one([32, 34])
            slot[at:at + 2] = self.one([0, 1, KEY_LIMIT, KEY_LIMIT + 1, 65535]).to_bytes(2, "little")
        elif kind == 7:
            # Past the address, past a key, or anywhere in the areas.
            at = self.one([40 + len(entry.address), 295, 296, 2343, 2344, 4391,
                           self.random.randint(40, SLOT - 1)])
            slot[at] ^= 1 << self.random.randrange(8)
        elif kind == 8:
            slot = bytearray(SLOT)
            slot[self.one([0, 1, 2, 4, 5, 40, 296, 2344, 4391])] = 1
        elif kind == 9:
            slot[8:16] = max(0, (entry.autocrypt_timestamp or 1) - 1).to_bytes(8, "little")
        elif kind == 10:
            at = self.random.randrange(SLOT)
            slot[at] ^= 1 << self.random.randrange(8)
        elif kind == 11:
            slot = bytearray(self.mutate(bytes(slot))[:SLOT].ljust(SLOT, b"\0"))
        return bytes(slot)

    def table(self) -> bytes:
        """A table: mostly sound, sometimes broken in one place, sometimes of a bad length."""
        return self.sometimes_broken(self.sound_table())

    def sometimes_broken(self, octets: bytes) -> bytes:
        """Mostly the table itself; else one with a fault, of a bad length or of the old form."""
        kind = self.random.randrange(20)
        if kind == 0:
            if self.chance(0.3):
                return bytes(self.near(SLOTS_LIMIT) * SLOT + self.one([0, 0, 1]))
            return self.one([b"", b"\0", octets[:-1], octets + b"\0", octets[:SLOT - 1],
                             octets[:self.random.randrange(len(octets))]])
        if kind in (1, 2):
            at = self.random.randrange(len(octets) // SLOT) * SLOT
            return octets[:at] + self.broken_slot() + octets[at + SLOT:]
        if kind == 3:
            # One slot stands twice, or a slot of an equal address.
            at = self.random.randrange(len(octets) // SLOT) * SLOT
            return octets + octets[at:at + SLOT]
        if kind == 4 and self.chance(0.8):
            # T20: one that was not converted.
            return self.old_table()
        return octets

    def listing_input(self) -> bytes:
        """Standard input for the listing program; 14 and 15 slots among them."""
        if self.chance(0.15):
            size = self.near(14)
            held = [self.entry(b"q%d@q" % place) if self.chance(0.5) else None for place in range(size)]
            return table_of(held) + self.one([b"", b"", b"\0"])
        return self.table()

    # Messages.

    def message(self) -> tuple[int, bytes, bytes, int]:
        """Receipt time, outer block, payload block and gossip setting."""
        sender = self.someone()
        lines = [self.field(b"From", self.list_of([sender]))]
        kind = self.random.randrange(24)
        if kind == 0:
            lines = [self.field(b"From", self.address_list())]
        elif kind == 1:
            lines = self.one([[], lines * 2, lines + [self.field(b"From", self.peer())]])
        dates = [self.spaced(self.date_of(self.close_moment()))] if self.chance(0.7) else self.dates()
        lines += [self.field(b"Date", value) for value in dates]
        lines += [self.field(b"Autocrypt", value) for value in self.field_values(sender)]
        listed = [self.someone() for _ in range(self.random.randint(1, 4))]
        if self.chance(0.8):
            lines.append(self.field(self.one([b"To", b"To", b"Cc", b"Reply-To"]), self.list_of(listed)))
        for name in (b"To", b"Cc", b"Reply-To"):
            if self.chance(0.2):
                lines.append(self.field(name, self.address_list()))
        if self.chance(0.2):
            lines.append(self.field(b"Content-Type", self.content_type()))
        if self.chance(0.2):
            lines.append(self.plain_field())
        if self.chance(0.05):
            # B12: gossip outside the payload is not read.
            lines.append(self.field(b"Autocrypt-Gossip", self.field_value()))
        self.random.shuffle(lines)
        if kind == 2:
            lines.insert(self.random.randint(0, len(lines)), self.bad_line() + self.ending())
        elif kind == 3:
            lines.insert(self.random.randint(0, len(lines)), self.ending())
        outer = self.tail(b"".join(lines))
        if kind == 4:
            outer = self.mutate(outer)
        elif kind == 5 and self.chance(0.3):
            outer = self.sized(outer)
        return self.receipt(), outer, self.payload(listed), self.gossip_setting()

    def gossip_setting(self) -> int:
        """G1: take in half of the cases; unset, skip, and numbers that are none of the three in the rest."""
        if self.chance(0.5):
            return TAKE
        return self.one([UNSET, SKIP, self.one([3, 255, self.random.randrange(3, 256)])])

    def payload(self, listed: list[bytes]) -> bytes:
        """A payload block: none, gossip mostly about the addresses listed, or unreadable."""
        kind = self.random.randrange(12)
        if kind < 2:
            return b""
        lines = []
        for _ in range(self.random.randint(0, 4)):
            address = self.respelled(self.one(listed)) if self.chance(0.8) else None
            lines.append(self.field(b"Autocrypt-Gossip", self.field_value(address)))
        if self.chance(0.2):
            # B12: fields of the payload that are not looked at.
            lines.append(self.field(self.one([b"Autocrypt", b"Date", b"To", b"From"]), self.peer()))
        if self.chance(0.3):
            lines.append(self.field(b"Content-Type", self.content_type()))
        self.random.shuffle(lines)
        if kind == 3:
            lines.insert(self.random.randint(0, len(lines)), self.bad_line() + self.ending())
        payload = self.tail(b"".join(lines))
        if kind == 4:
            payload = self.mutate(payload)
        elif kind == 5 and self.chance(0.6):
            payload = self.sized(payload)
        elif kind == 6 and self.chance(0.3):
            payload = self.header_block()
        return payload

    # The arguments of whole calls.

    def processing(self) -> tuple[bytes, int, bytes, bytes, int]:
        """Table, receipt time, outer block, payload block and gossip setting."""
        return (self.table(), *self.message())

    def everyone(self) -> list[Entry]:
        """Entries of all peers, in half of the cases each with a key, so that long lists are not always disable."""
        addresses = self.known()
        fresh = self.chance(0.5)
        held = []
        for address in addresses:
            entry = self.entry(address)
            if fresh and entry.direct_key is None:
                entry.last_seen = entry.autocrypt_timestamp = self.moment()
                entry.direct_key, entry.mutual = self.good_key(), self.chance(0.7)
            held.append(entry)
        return held

    def recommending(self) -> tuple[bytes, bytes, bool, bool]:
        """Table, recipients, own preference and whether the mail is a reply."""
        octets = table_of(self.everyone()) if self.chance(0.5) else self.table()
        return octets, self.recipients(), self.chance(0.5), self.chance(0.3)

    def target(self) -> tuple[bytes, bytes, bool, bool, int]:
        """As above, and a list place."""
        return (*self.recommending(), self.list_place_number())

    def quick(self) -> tuple[bytes, bytes, bool, bool]:
        """As `recommending`, but mostly with a list made for its table, so that the first disable stands anywhere."""
        if self.chance(0.25):
            return self.recommending()
        held = self.everyone()
        keyed = [entry.address for entry in held if entry.direct_key is not None or entry.gossip_key is not None]
        others = [entry.address for entry in held if entry.address not in keyed] + [b"nobody@n", b"x@y.z"]
        recipients = self.joined(self.up_to_disable(keyed, others))
        # A14: a fault behind everyone.
        if self.chance(0.15):
            recipients += self.one([b",", b", ,", b" Bob", b";", b" (", b")", b"\r\n", b", a@b@c", b", \"", b", g: a@b",
                                    b"\x01", b", <>", b":", b"\\", b", a b@c"])
        return self.sometimes_broken(table_of(held)), recipients, self.chance(0.5), self.chance(0.3)

    def up_to_disable(self, keyed: list[bytes], others: list[bytes]) -> list[bytes]:
        """Recipients, many of them equal: with keys up to some place, one without, then any; or none with a key."""
        count = self.near(RECIPIENTS_LIMIT) if self.chance(0.1) else self.one([1, 1, 2, 2, 3, 4, 6])
        few = self.random.sample(keyed, min(len(keyed), self.one([1, 2, 3, len(PEERS)])))
        if not few or self.chance(0.1):
            return [self.one(others) for _ in range(count)]
        first = self.one([0, count - 1, self.random.randrange(count), count, count])
        behind = self.one([few, others, few + others])
        places = [few] * first + [others] + [behind] * count
        return [self.one(choices) for choices in places[:count]]

    def joined(self, addresses: list[bytes]) -> bytes:
        """A list of these, some in another spelling: with commas alone, or with groups, names and comments."""
        spelled = [self.spelled(address) if self.chance(0.3) else address for address in addresses]
        return b",".join(spelled) if self.chance(0.3) else self.list_of(spelled)

    def one_slot(self) -> tuple[bytes, int, int]:
        """Table, slot, mostly one that the table has, and how many numbers are lent."""
        octets = self.table()
        slots = len(octets) // SLOT
        slot = self.one([self.random.randrange(slots + 1), self.random.randrange(slots + 1), self.near(slots),
                         self.one([SLOTS_LIMIT, 1 << 32, 1 << 52, (1 << 64) // SLOT + 1, 1 << 63, (1 << 64) - 1])])
        return octets, slot, self.one([NUMBERS, NUMBERS, NUMBERS + 1, self.random.randint(0, NUMBERS + 2)])

    def room(self, length: int) -> int:
        """The length of an output for a field of the given length."""
        return self.one([length, length, self.near(length), 0, 1, length + 100, self.random.randint(0, 4000)])

    def writing(self) -> tuple[bytes, bytes, bool, int]:
        """Address, key, preference and length of the output."""
        address, key, mutual = self.address(), self.key(), self.chance(0.5)
        return address, key, mutual, self.room(len(write_autocrypt(address, key, mutual, 1 << 20)[1]))

    def writing_gossip(self) -> tuple[bytes, bytes, int]:
        """Address, key and length of the output."""
        address, key = self.address(), self.key()
        return address, key, self.room(len(write_gossip(address, key, 1 << 20)[1]))

    def displaying(self) -> tuple[bytes, int]:
        """Address and length of the output."""
        kind = self.random.randrange(8)
        address = self.address() if kind < 2 else self.peer() if kind < 4 else self.international()
        return address, self.one([self.room(len(display(address, 1 << 20)[1])), 1024])

    # Outgoing mail.

    def linting(self) -> tuple[bytes, bytes, int]:
        """Outer block, payload block and how many numbers are lent."""
        outer, payload = self.message()[1:3] if self.chance(0.1) else self.outgoing()
        _, faults = lint(outer, payload, 3 * FAULTS_LIMIT)
        return outer, payload, self.lent(len(faults))

    def lent(self, faults: int) -> int:
        """How many numbers are lent for so many faults: just enough, more, one number or one fault less, none."""
        just = 3 * faults
        less = [just - 1, just - 2, just - 3, 0, self.random.randint(0, just)]
        more = [just, just, just + 1, just + 2, just + 3, just + self.random.randint(0, 60), 300 + just]
        return max(0, self.one(less if self.chance(0.3) else more))

    def outgoing(self) -> tuple[bytes, bytes]:
        """Outer block and payload block of a mail that some program is about to send, with faults and without."""
        sender, listed, hidden = self.someone(), [self.someone() for _ in range(self.one([1, 1, 2, 3]))], self.someone()
        tidy = self.chance(0.25)
        lines = self.sender_lines(sender) + self.own_lines(sender, tidy) + self.list_lines(listed, hidden)
        if not tidy:
            # O6: those who stand in no readable list of the three names, and the sender, who stands in From.
            others = [hidden, sender, self.peer()]
            lines += [self.gossip_line(listed, others) for _ in range(self.one([0, 0, 0, 0, 1, 1, 2]))]
            told = [self.gossip_line(listed, others) for _ in range(self.one([0, 1, 1, 2, 3]))]
        else:
            told = [self.tidy_line(b"Autocrypt-Gossip", self.one(listed)) for _ in range(self.one([0, 1, 1, 2]))]
        if self.chance(0.01):
            lines += [self.one(SHORT_LINES) for _ in range(self.one([20, 300]))]
            told += [self.one(SHORT_LINES) for _ in range(self.one([20, 300]))]
        lines += [self.passed_over() for _ in range(self.one([0, 0, 1, 2]))]
        told += [self.passed_over() for _ in range(self.one([0, 0, 1, 2]))]
        if self.chance(0.15):
            # O3: an Autocrypt field of a payload is not read. O6: nor does its To make a recipient.
            told.append(self.one([self.field(b"Autocrypt", self.lapsed_value(sender)), self.field(b"To", hidden)]))
        return self.block_of(lines), self.block_of(told) if self.chance(0.85) else b""

    def block_of(self, lines: list[bytes]) -> bytes:
        """The lines in any order as a block, which is readable as a rule."""
        self.random.shuffle(lines)
        kind = self.random.randrange(24)
        if kind == 0:
            lines.insert(self.random.randint(0, len(lines)), self.bad_line() + self.ending())
        elif kind == 1:
            lines.insert(self.random.randint(0, len(lines)), self.ending())
        block = self.tail(b"".join(lines)) if self.chance(0.6) else b"".join(lines)
        if kind == 2:
            return self.mutate(block)
        return self.sized(block) if kind == 3 and self.chance(0.2) else block

    def sender_lines(self, sender: bytes) -> list[bytes]:
        """The From of a mail; seldom none, two, or a list of another number of addresses."""
        kind = self.random.randrange(20)
        lines = [self.field(b"From", self.list_of([sender]))]
        if kind == 0:
            return self.one([[], lines * 2, lines + [self.field(b"From", self.peer())]])
        if kind == 1:
            return [self.field(b"From", self.one([self.address_list(), self.list_of([sender, sender])]))]
        return lines

    def list_lines(self, listed: list[bytes], hidden: bytes) -> list[bytes]:
        """To, Cc and Reply-To with those listed, and where another may stand without being a recipient (G4)."""
        lines = []
        for address in listed:
            if self.chance(0.95):
                spelled = self.respelled(address)
                lines.append(self.field(self.one([b"To", b"To", b"Cc", b"Reply-To"]), self.list_of([spelled])))
        if self.chance(0.3):
            lines.append(self.field(self.one([b"To", b"Cc"]), self.list_of(listed)))
        if self.chance(0.5):
            fault = self.one([b",", b" Bob", b"(", b"\x01", b";", b", a@b@c"])
            lines.append(self.one([self.field(b"To", self.list_of([hidden]) + fault),
                                   self.field(self.one([b"Bcc", b"Sender", b"Resent-To", b"X-To"]), hidden),
                                   self.field(b"Cc", self.address_list())]))
        return lines

    def passed_over(self) -> bytes:
        """A field that has no part in the faults of a mail; a report among them (O1)."""
        return self.field(b"Content-Type", self.content_type()) if self.chance(0.3) else self.plain_field()

    def own_lines(self, sender: bytes, tidy: bool) -> list[bytes]:
        """The Autocrypt fields of a mail."""
        if tidy:
            return [self.tidy_line(b"Autocrypt", sender)]
        kind = self.random.randrange(8)
        if kind == 0:
            return []
        if kind < 3:
            # O5: several that are valid, equal ones among them.
            lines = [self.tidy_line(b"Autocrypt", sender) for _ in range(self.one([1, 2, 2, 3]))]
            return lines + [self.one(lines)] if self.chance(0.3) else lines
        lines = []
        for _ in range(self.one([1, 1, 2, 3])):
            address = self.respelled(sender) if self.chance(0.8) else self.peer()
            lines.append(self.field(b"Autocrypt", self.lapsed_value(address)))
        return lines + [self.tidy_line(b"Autocrypt", sender)] if self.chance(0.3) else lines

    def tidy_line(self, name: bytes, address: bytes) -> bytes:
        """A field without a fault, if the address is plain: as our writers write it, or as others might."""
        gossip, mutual = name != b"Autocrypt", self.chance(0.5)
        if self.chance(0.5):
            key = self.good_key()
            number, field = write_gossip(address, key, 9000) if gossip else write_autocrypt(address, key, mutual, 9000)
            if number == 0:
                return field
        pieces = [b"addr=" + self.respelled(address)]
        if mutual and not gossip:
            pieces.append(b"prefer-encrypt=" + self.one(PREFERENCES))
        if self.chance(0.2):
            pieces.append(self.one(IGNORED))
        self.random.shuffle(pieces)
        return self.field(name, self.pieced(pieces + [b"keydata=" + base64.encode(self.good_key())]))

    def gossip_line(self, listed: list[bytes], others: list[bytes]) -> bytes:
        """A gossip field about one of those listed, or about one of the others."""
        address = self.one(listed if self.chance(0.65) else others)
        if self.chance(0.3):
            return self.tidy_line(b"Autocrypt-Gossip", address)
        return self.field(b"Autocrypt-Gossip", self.lapsed_value(self.respelled(address)))

    def pieced(self, pieces: list[bytes]) -> bytes:
        """The pieces of a value joined, with blanks around some."""
        return b";".join(self.blank() + piece + self.blank() for piece in pieces)

    def lapsed_value(self, address: bytes) -> bytes:
        """The value of a field with lapses: often one, also none or several."""
        pieces = [b"addr=" + address, b"keydata=" + base64.encode(self.some(b"key", 1, 9))]
        if self.chance(0.2):
            pieces.insert(self.random.randint(0, 1), b"prefer-encrypt=" + self.one(PREFERENCES))
        for _ in range(self.one([0, 1, 1, 1, 1, 2, 2, 4])):
            self.lapse(pieces, address)
        return self.sometimes_mutated(self.pieced(pieces), 0.05)

    def lapse(self, pieces: list[bytes], address: bytes) -> None:
        """One change of the pieces, which leads to a fault or just does not (O5 to O9)."""
        kind = self.random.randrange(14)
        at = self.random.randint(0, len(pieces))
        if kind == 0:
            pieces.insert(at, self.one(UNKNOWN))
        elif kind == 1:
            pieces.insert(at, self.one(IGNORED))
        elif kind in (2, 3):
            pieces.insert(self.one([at, 0]), self.one(NO_ATTRIBUTE))
        elif kind == 4:
            pieces.insert(at, b"prefer-encrypt=" + self.one(PREFERENCES))
        elif kind == 5:
            pieces.insert(at, b"addr=" + self.one([address, self.peer(), self.address(), b"", b"<" + address + b">"]))
        elif kind == 6:
            # Another address in the place of each, or one that is not plain.
            other = self.one([self.peer(), self.address(), self.near_miss(address), self.bad_list(), b"a@b " + address])
            pieces[:] = [b"addr=" + other if piece.startswith(b"addr=") else piece for piece in pieces]
        elif kind == 7:
            pieces.insert(at, b"keydata=" + self.one(KEY_TEXTS))
        elif kind in (8, 9):
            text = self.key_text()
            pieces[:] = [b"keydata=" + text if piece.startswith(b"keydata=") else piece for piece in pieces]
        elif kind == 10:
            # F3, F8: a `;` at the end.
            pieces.append(self.one([b"", b"", b" "]))
        elif kind == 11 and pieces:
            del pieces[at - 1]
        elif kind == 12 and pieces:
            # F4: names have a case.
            name, sign, value = pieces[at - 1].partition(b"=")
            pieces[at - 1] = self.one([name.upper(), name.title(), self.any_case(name), b"_" + name]) + sign + value
        else:
            self.random.shuffle(pieces)

    def key_text(self) -> bytes:
        """Key data: of no octets, about as many as may be, or far more; and such as is no Base64."""
        if self.chance(0.5):
            return base64.encode(self.random.randbytes(self.one([0, 0, 1, self.near(KEY_LIMIT), 2 * KEY_LIMIT])))
        return self.base64_text() if self.chance(0.5) else self.one(KEY_TEXTS)
