"""The inputs of the bench, made from one seed: tables, header blocks as mail programs and mail hosts write them, lists.

    python3 bench/messages.py FOLDER [--few]

writes one file for each case, and `cases.tsv`, which names for each file the call, the programs that take it, the group
of rows that it belongs to, the number that the group grows with, and the used slots of its table. A file holds a table and
the arguments of calls, each with its length before it (four octets, little-endian): the table; the number of calls; for
each call two texts (outer block and payload; recipients and nothing; address and key; nothing at all where the call
takes a table alone). `process` asks for gossip, and `process-unset` says nothing about it. `target` asks for the key of
the first recipient. `convert` has nothing to do, and `convert-old` has: its table is put back before each call. `lint`
takes an outer block and a payload, and no table.

All messages of a case have the same instant as their Date, in many zones: an equal date replaces, so that a call writes
the same key again each time and costs the same, however often it is repeated.
"""
import random
import sys
import time
from dataclasses import replace
from pathlib import Path

ROOT = Path(__file__).resolve().parents[1]
sys.path.insert(0, str(ROOT / "tests" / "independent"))

from scope.address import canonical  # noqa: E402
from scope.base64 import encode  # noqa: E402
from scope.header import BLOCK_LIMIT  # noqa: E402
from scope.table import Entry, table_of  # noqa: E402
from scope.writing import write_autocrypt, write_gossip  # noqa: E402

DATE = 1_690_000_000
RECEIPT = 1_700_000_000  # also in measure.c
SIZES = [1, 16, 64, 256]

FIRST = ["alice", "bob", "carol", "dave", "erin", "frank", "grace", "heidi", "ivan", "judy", "mallory", "niaj", "olivia",
         "peggy", "rupert", "sybil", "trent", "victor", "walter", "yvonne"]
LAST = ["smith", "meier", "garcia", "rossi", "novak", "dubois", "silva", "kowalski", "jensen", "nagy", "ito", "chen"]
HOSTS = ["mail.example", "posteo.example", "lists.university.example", "example.org", "mx.company.example", "riseup.example"]
WORDS = "minutes of the meeting draft budget travel plan invoice question release notes photos next week agenda".split()

# What takes each call. The C peer stands there twice, as gcc -O2 and gcc -O3 compile it.
LIBRARIES = ["ours", "peer", "peer3"]
BLOCKS = LIBRARIES + ["gmime", "memcpy"]
CHECKS = LIBRARIES + ["read"]
TABLE_ALONE = [(b"", b"")]

# A recipient whom no table of the bench has, and who therefore gets disable.
STRANGER = b'"Nobody" <nobody@unknown.example>'

# Small letters of two octets each: for the vowels, and for all letters.
ACCENTS = str.maketrans("aeiou", "áéíöü")
CYRILLIC = {ord("a") + i: 0x430 + i for i in range(26)}


class Maker:
    def __init__(self, seed: int, few: bool):
        self.random = random.Random(seed)
        self.many = 4 if few else 32
        self.addresses = self.distinct_addresses(256)
        self.entries = [self.entry(address) for address in self.addresses]
        self.known = self.addresses[:16]
        self.sender = self.known[8]

    def one(self, choices):
        return self.random.choice(choices)

    def text(self, n: int) -> bytes:
        """Base64 text of n characters."""
        return encode(self.random.randbytes(n))[:n]

    def key(self) -> bytes:
        return self.random.randbytes(self.random.randint(1650, 1750))

    # Tables.

    def distinct_addresses(self, n: int) -> list[bytes]:
        found: dict[bytes, None] = {}
        while len(found) < n:
            name = f"{self.one(FIRST)}.{self.one(LAST)}" + self.one(["", str(self.random.randint(1, 99))])
            found[f"{name}@{self.one(HOSTS)}".encode()] = None
        return list(found)

    def entry(self, address: bytes) -> Entry:
        """An entry as use leaves it: most people have sent a key, half are known by gossip too."""
        entry = Entry(address, last_seen=DATE - self.random.randrange(10_000_000))
        kind = self.random.randrange(10)
        if kind < 9:
            entry.autocrypt_timestamp = entry.last_seen - self.random.randrange(1_000_000)
            entry.direct_key, entry.mutual = self.key(), self.random.random() < 0.5
        if kind % 2 == 1:
            entry.gossip_timestamp, entry.gossip_key = DATE - self.random.randrange(10_000_000), self.key()
        return entry

    def held(self, used: int) -> list[Entry]:
        """A full table: the sender in its middle, the known people spread over it, so that all sizes take the same mail."""
        if used < 16:
            held = self.entries[16:15 + used]
            held.insert(used // 2, self.entries[8])
            return held
        held = self.entries[16:used]
        for i in range(16):
            held.insert(i * used // 16, self.entries[i])
        return held

    def table(self, used: int) -> bytes:
        return table_of(self.held(used))

    def respelled(self, letters: dict[int, int]) -> list[Entry]:
        """The full table of 256 slots, with other letters in the local parts."""
        return [replace(entry, address=respelled(entry.address, letters)) for entry in self.held(256)]

    def old(self) -> list[Entry]:
        """A full table of the old rule. All addresses have accents. Every second one has a capital with an accent, and
        every eighth is such a spelling of an address that stands in another slot, higher or lower."""
        held = self.respelled(ACCENTS)
        forms = [entry.address for entry in held]
        for i in range(1, 256, 2):
            held[i].address = with_capital(forms[(i + 129) % 256 if i % 8 == 7 else i])
        return held

    def old_at_last(self) -> list[Entry]:
        """A full table in ASCII, but for a capital with an accent in its last slot."""
        *held, last = self.held(256)
        return held + [replace(last, address=with_capital(respelled(last.address, ACCENTS)))]

    # Header blocks.

    def date(self) -> bytes:
        east = self.one([-480, -300, -60, 0, 0, 60, 120, 330])
        moment = time.gmtime(DATE + east * 60)
        days, months = "Mon Tue Wed Thu Fri Sat Sun".split(), "Jan Feb Mar Apr May Jun Jul Aug Sep Oct Nov Dec".split()
        zone = "%s%02d%02d" % ("-" if east < 0 else "+", abs(east) // 60, abs(east) % 60)
        stamp = f"{days[moment.tm_wday]}, {moment.tm_mday} {months[moment.tm_mon - 1]} {moment.tm_year} "
        return (stamp + time.strftime("%H:%M:%S ", moment) + zone + self.one(["", " (UTC)"])).encode()

    def host(self) -> bytes:
        return b"mx%d.%s" % (self.random.randint(1, 40), self.one(HOSTS).encode())

    def named(self, address: bytes) -> bytes:
        """An address as it stands in a list."""
        name = b" ".join(part.capitalize() for part in address.split(b"@")[0].rstrip(b"0123456789").split(b"."))
        return self.one([address, name + b" <" + address + b">", b'"' + name + b'" <' + address + b">"])

    def listed(self, addresses: list[bytes]) -> bytes:
        return b",\r\n ".join(self.named(address) for address in addresses)

    def received(self) -> bytes:
        return (b"Received: from " + self.host() + b" (" + self.host() + b" [192.0.2.%d])\r\n" % self.random.randint(1, 254)
                + b"\tby " + self.host() + b" (Postfix) with ESMTPS id " + self.text(10).replace(b"/", b"A") + b"\r\n"
                + b"\tfor <someone@mail.example>; " + self.date() + b"\r\n")

    def signature(self) -> bytes:
        lines = b"\r\n\t ".join(self.text(72) for _ in range(4)) + b"\r\n\t " + self.text(56)
        return (b"DKIM-Signature: v=1; a=rsa-sha256; c=relaxed/relaxed; d=" + self.one(HOSTS).encode() + b";\r\n"
                + b"\ts=mail2022; t=%d; bh=" % DATE + self.text(44) + b";\r\n"
                + b"\th=Date:To:From:Subject:References:In-Reply-To:Autocrypt:From;\r\n\tb=" + lines + b"\r\n")

    def filler(self) -> bytes:
        """A field that no program here has to look into."""
        kind = self.random.randrange(6)
        if kind < 2:
            return self.received()
        if kind == 2:
            return self.signature()
        if kind == 3:
            return b"X-Spam-Status: No, score=-%d.%d required=5.0 tests=ALL_TRUSTED,DKIM_VALID\r\n\tautolearn=ham\r\n" % (
                self.random.randint(0, 9), self.random.randint(0, 9))
        if kind == 4:
            return b"Authentication-Results: " + self.host() + b"; dkim=pass\r\n\theader.d=" + self.host() + b"; spf=pass\r\n"
        return b"X-Originating-Host: " + self.host() + b"\r\n"

    def block(self, sender: bytes, recipients: list[bytes], key: bytes | None, octets: int) -> bytes:
        """A header block of about so many octets, never more than the limit, with its empty line."""
        subject = b" ".join(self.one(WORDS).encode() for _ in range(self.random.randint(2, 8)))
        identity = b"<" + self.text(24).replace(b"/", b"A") + b"@" + self.host() + b">"
        tail = [b"From: " + self.named(sender) + b"\r\n", b"To: " + self.listed(recipients) + b"\r\n",
                b"Date: " + self.date() + b"\r\n", b"Subject: " + subject + b"\r\n", b"Message-ID: " + identity + b"\r\n",
                b"MIME-Version: 1.0\r\n",
                b'Content-Type: multipart/encrypted;\r\n protocol="application/pgp-encrypted";\r\n boundary="'
                + self.text(20) + b'"\r\n']
        if key is not None:
            tail.append(write_autocrypt(sender, key, self.random.random() < 0.5, 1 << 16)[1])
        self.random.shuffle(tail)
        head = [b"Return-Path: <" + sender + b">\r\n", b"Delivered-To: someone@mail.example\r\n"]
        # The empty line is counted too.
        length = sum(map(len, head + tail)) + 2
        while True:
            more = self.filler()
            if length + len(more) > octets:
                break
            head.append(more)
            length += len(more)
        return b"".join(head + tail) + b"\r\n"

    # Calls. Each is two texts.

    def people(self, known: list[bytes], n: int) -> list[bytes]:
        """So many addresses; where fewer are known some stand again."""
        return self.random.sample(known, n) if n <= len(known) else [known[i % len(known)] for i in range(n)]

    def message(self, with_key: bool, octets: int) -> tuple[bytes, bytes]:
        recipients = self.people(self.addresses, self.random.randint(1, 6))
        return self.block(self.sender, recipients, self.key() if with_key else None, octets), b""

    def ordinary(self) -> tuple[bytes, bytes]:
        """3 to 8 KB with a key."""
        return self.message(True, self.random.randint(3072, 8192))

    def gossiping(self, known: list[bytes], fields: int) -> tuple[bytes, bytes]:
        """A message with a key, and a payload with gossip about each recipient."""
        recipients = self.people(known, fields)
        outer = self.block(self.sender, recipients, self.key(), self.random.randint(4096, 8192))
        gossip = b"".join(write_gossip(address, self.key(), 1 << 16)[1] for address in recipients)
        return outer, b"Content-Type: text/plain; charset=utf-8\r\n" + gossip + b"\r\n"

    def recipients(self, known: list[bytes], n: int) -> tuple[bytes, bytes]:
        return self.listed(self.people(known, n)).replace(b"\r\n", b""), b""

    def small_gossip(self, address: bytes) -> bytes:
        return b"Autocrypt-Gossip:addr=" + address + b";keydata=" + self.text(4) + b"\n"

    def much_gossip(self, addresses: list[bytes]) -> list[bytes]:
        """As many small fields about these addresses, in turn, as a payload may hold."""
        fields = [self.small_gossip(addresses[i % len(addresses)]) for i in range(BLOCK_LIMIT // 40)]
        while len(b"".join(fields)) > BLOCK_LIMIT:
            fields.pop()
        return fields


def with_stranger(recipients: list[bytes], place: int | None) -> list[bytes]:
    """The last recipient gives way to the stranger, who stands at the place, counted from 1; nobody does where there is none.
    So a list has the same octets wherever he stands, and costs the same to read."""
    if place is None:
        return recipients
    rest = recipients[:-1]
    return rest[:place - 1] + [STRANGER] + rest[place - 1:]


def without_autocrypt(block: bytes) -> bytes:
    """The same block without its Autocrypt field."""
    before, field = block.split(b"Autocrypt: addr=", 1)
    # The field ends before the first line that does not continue it.
    lines = field.split(b"\r\n")
    rest = next(i for i in range(1, len(lines)) if not lines[i].startswith(b" "))
    return before + b"\r\n".join(lines[rest:])


def with_fault(block: bytes) -> bytes:
    """The same block with an unknown attribute in its Autocrypt field, so that it has no valid one."""
    return block.replace(b"Autocrypt: addr=", b"Autocrypt: type=1; addr=", 1)


def respelled(address: bytes, letters: dict[int, int]) -> bytes:
    """The address with other letters in its local part."""
    local, host = address.decode().split("@")
    return f"{local.translate(letters)}@{host}".encode()


def with_capital(address: bytes) -> bytes:
    """The address with the capital of its first letter beyond ASCII."""
    text = address.decode()
    first = next(letter for letter in text if not letter.isascii())
    return text.replace(first, first.upper(), 1).encode()


def spellings(letters: int) -> list[bytes]:
    """All spellings of one address that has so many letters of two octets."""
    return ["".join("éÉ"[i >> k & 1] for k in range(letters)).encode() + b"@b" for i in range(2 ** letters)]


def names_alike(pairs: int) -> list[bytes]:
    """Different addresses that all have the same tag: 33 times `a` plus `^` is 33 times `b` plus `=`."""
    return [b"".join((b"a^", b"b=")[i >> k & 1] for k in range(pairs)) + b"@c" for i in range(2 ** pairs)]


def short_names(n: int) -> list[bytes]:
    """Short addresses of one length."""
    letters = b"abcdefghijklmnopqrstuvwxyz"
    return [bytes([letters[i // 676 % 26], letters[i // 26 % 26], letters[i % 26]]) + b"@b" for i in range(n)]


def scripted_names(n: int) -> list[bytes]:
    """Addresses of five octets whose domain is one letter of two octets."""
    letters = "abcdefghijklmnopqrstuvwxyz"
    return [f"{letters[i // 26 % 26]}{letters[i % 26]}@{chr(0xE0 + i // 676)}".encode() for i in range(n)]


def costly_names(n: int) -> list[bytes]:
    """Addresses with a label of 41 different letters, from the last to the first: more of them have no form."""
    label = "".join(chr(0x561 + i) for i in reversed(range(41)))
    return [f"{chr(97 + i // 26 % 26)}{chr(97 + i % 26)}@{label}".encode() for i in range(n)]


def long_local_parts(n: int, letters: int) -> list[bytes]:
    """Addresses whose local parts have so many letters and differ in the last two of them only."""
    return [b"a" * (letters - 2) + bytes([97 + i // 26 % 26, 97 + i % 26]) + b"@b" for i in range(n)]


def long_names(n: int) -> list[bytes]:
    """Addresses of 254 octets that differ in their last octets only."""
    return [b"a" * 64 + b"@" + (b"b" * 63 + b".") * 2 + b"b" * 57 + b"%04d" % i for i in range(n)]


def quick_cases(make: Maker, few: bool):
    """A quick answer for 100 recipients: the first disable at a place or nowhere, and at the last place with a comma behind,
    so that the list is refused. `recommend` on the very same lists, and the call for a target key on those that are refused,
    which it only reads. And the growth with the place."""
    table = make.table(256)
    lists = [[make.named(address) for address in make.people(make.addresses, 100)] for _ in range(8)]

    def calls(place: int | None, tail: bytes = b"") -> list[tuple[bytes, bytes]]:
        return [(b", ".join(with_stranger(one, place)) + tail, b"") for one in lists]

    refused = calls(100, b",")
    for where, told in (("at-1", calls(1)), ("at-50", calls(50)), ("nowhere", calls(None)), ("refused", refused)):
        for call in ("quick", "recommend"):
            yield f"{call}-{where}", 256, 256, call, LIBRARIES, table, told
    yield "target-refused", 256, 256, "target", LIBRARIES, table, refused
    for place in (1, 20) if few else (1, 2, 5, 10, 20, 35, 50, 75, 100):
        yield "grow-quick", place, 256, "quick", LIBRARIES, table, calls(place)


def cases(few: bool):
    """All cases: group, number that it grows with, used slots, call, programs, table, calls."""
    make = Maker(11, few)
    with_key = [make.ordinary() for _ in range(make.many)]
    without_key = [(without_autocrypt(outer), b"") for outer, _ in with_key]
    # A table of one slot holds the sender alone, so gossip and recipients are then the sender again and again.
    gossiping = {1: [make.gossiping([make.sender], fields) for fields in range(1, 21)]}
    gossiping |= dict.fromkeys(SIZES[1:], [make.gossiping(make.known, fields) for fields in range(1, 21)])
    lists = {(1, n): [make.recipients([make.sender], n) for _ in range(make.many)] for n in (1, 20)}
    for n in (1, 20):
        lists |= dict.fromkeys([(used, n) for used in SIZES[1:]], [make.recipients(make.known, n) for _ in range(make.many)])
    for used in SIZES:
        table = make.table(used)
        yield "key", used, used, "process", BLOCKS, table, with_key
        yield "keyless", used, used, "process", BLOCKS, table, without_key
        yield "gossip", used, used, "process", LIBRARIES + ["memcpy"], table, gossiping[used]
        for n in (1, 20):
            yield f"recommend-{n}", used, used, "recommend", LIBRARIES, table, lists[used, n]
        yield "check", used, used, "check", CHECKS, table, TABLE_ALONE
    yield "write", 0, 0, "write", LIBRARIES, b"", [(make.one(make.addresses), make.key()) for _ in range(make.many)]

    # Growth.
    for kilobytes in (1, 4, 64) if few else (1, 2, 4, 8, 16, 24, 32, 48, 64):
        octets = kilobytes * 1024
        table = make.table(16)
        yield "grow-block", octets, 16, "process", BLOCKS, table, [make.message(False, octets) for _ in range(8)]
        if kilobytes >= 4:
            yield "grow-block-key", octets, 16, "process", BLOCKS, table, [make.message(True, octets) for _ in range(8)]
    for used in (1, 4) if few else (1, 2, 4, 8, 16, 32, 64, 128, 192, 256):
        table = make.table(used)
        yield "grow-slots", used, used, "process", LIBRARIES + ["gmime"], table, with_key[:8]
        yield "grow-check", used, used, "check", CHECKS, table, TABLE_ALONE
    for fields in (0, 10) if few else (0, 1, 5, 10, 20, 50, 100, 200, 400, 700, 1000, 1500):
        # Fifteen recipients, all of the table, and many small fields about them.
        names = short_names(15)
        outer = make.block(make.sender, names, None, 2048)
        payload = b"".join(make.small_gossip(names[i % 15]) for i in range(fields))
        table = table_of([Entry(make.sender)] + [Entry(name) for name in names])
        yield "grow-gossip", fields, 16, "process", LIBRARIES, table, [(outer, payload)]
    for n in (1, 20) if few else (1, 2, 5, 10, 20, 35, 50, 75, 100):
        calls = [make.recipients(make.addresses, n) for _ in range(8)]
        yield "grow-recipients", n, 256, "recommend", LIBRARIES, make.table(256), calls

    # What a stranger can send: a list of 60 KB and a payload full of small gossip fields, about the last of the list
    # (all are accepted), about nobody of it (none is), and about more newcomers than there are free slots.
    if not few:
        names = short_names(10_000)
        outer = b"From: aaa@b\nTo: " + b",".join(names) + b"\n\n"
        table = table_of([Entry(name) for name in names[:1] + names[-255:]])
        for what, chosen in (("listed", names[-255:]), ("unlisted", [b"zzz@c"]), ("newcomers", names[:2000])):
            fields = make.much_gossip(chosen)
            yield f"hostile-{what}", len(fields), 256, "process", LIBRARIES, table, [(outer, b"".join(fields))]
        # Recipients whose tags are all alike, and gossip about one more such address.
        *names, other = names_alike(11)
        outer = b"From: aaa@b\nTo: " + b",".join(names) + b"\n\n"
        field = make.small_gossip(other)
        yield "hostile-tags", BLOCK_LIMIT // len(field), 256, "process", LIBRARIES, table, [(outer, field * (BLOCK_LIMIT // len(field)))]
        table = table_of([Entry(name) for name in long_names(256)])
        yield "hostile-addresses", 256, 256, "check", CHECKS, table, TABLE_ALONE

    # Gossip that is there and is not asked for, and the same mails without it.
    alone, among = ([make.gossiping(known, 20) for _ in range(8)] for known in ([make.sender], make.known))
    for used in SIZES:
        told = among if used > 1 else alone
        yield "unasked", used, used, "process-unset", LIBRARIES, make.table(used), told
        yield "unasked-bare", used, used, "process-unset", LIBRARIES, make.table(used), [(outer, b"") for outer, _ in told]

    # Addresses beyond ASCII, in the table of which `check` has the ASCII form.
    for name, letters in (("accents", ACCENTS), ("cyrillic", CYRILLIC)):
        table = table_of(make.respelled(letters))
        yield f"check-{name}", 256, 256, "check", CHECKS, table, TABLE_ALONE
        yield f"convert-{name}", 256, 256, "convert", CHECKS, table, TABLE_ALONE
    # Conversions: of the tables that `check` takes, which stay as they are, and of tables of the old rule.
    for used in SIZES:
        yield "convert", used, used, "convert", CHECKS, make.table(used), TABLE_ALONE
    yield "convert-old", 256, 256, "convert-old", CHECKS, table_of(make.old()), TABLE_ALONE
    yield "convert-last", 256, 256, "convert-old", CHECKS, table_of(make.old_at_last()), TABLE_ALONE
    # Local parts of 64 octets, of ASCII and of letters of two octets; and 256 spellings of one address, each younger than
    # those below it, as a stranger could have made them who wrote to a program of the old rule.
    if not few:
        ascii_names, names = long_local_parts(256, 64), [respelled(name, CYRILLIC) for name in long_local_parts(256, 32)]
        for what, chosen in (("ascii", ascii_names), ("letters", names)):
            yield f"hostile-{what}", 256, 256, "check", CHECKS, table_of([Entry(name) for name in chosen]), TABLE_ALONE
        key = make.key()
        table = table_of([Entry(name, i, i, key, False, i, key) for i, name in enumerate(spellings(8))])
        yield "hostile-spellings", 256, 256, "convert-old", CHECKS, table, TABLE_ALONE
        # Lists with labels that have to be coded: very many, very long ones, and such whose tags are alike.
        for what, names in (("scripts", scripted_names(10_000)), ("labels", costly_names(700))):
            outer = b"From: aaa@b\nTo: " + b",".join(names) + b"\n\n"
            chosen, table = names[-255:], table_of([Entry(canonical(name)) for name in [b"aaa@b"] + names[-255:]])
            fields = make.much_gossip(chosen)
            yield f"hostile-{what}", len(fields), 256, "process", LIBRARIES, table, [(outer, b"".join(fields))]
        *names, other = (name.replace(b"@c", "@é".encode()) for name in names_alike(11))
        outer = b"From: aaa@b\nTo: " + b",".join(names) + b"\n\n"
        field = make.small_gossip(other)
        calls = [(outer, field * (BLOCK_LIMIT // len(field)))]
        yield "hostile-coded-tags", BLOCK_LIMIT // len(field), 256, "process", LIBRARIES, table, calls

    # New rows come last, so that those above draw the same random numbers as before.
    yield from quick_cases(make, few)
    # Outgoing mail: that of the table of one slot, as it is, and with two faults each.
    faulty = [(with_fault(outer), payload) for outer, payload in gossiping[1]]
    for group, sent in (("lint", gossiping[1]), ("lint-faulty", faulty)):
        yield group, 1, 0, "lint", ["ours", "memcpy"], b"", sent


def counted(octets: bytes) -> bytes:
    return len(octets).to_bytes(4, "little") + octets


def write_all(folder: Path, few: bool) -> None:
    folder.mkdir(parents=True, exist_ok=True)
    lines = []
    for group, number, used, call, programs, table, calls in cases(few):
        name = f"{group}.{number}"
        texts = b"".join(counted(first) + counted(second) for first, second in calls)
        (folder / name).write_bytes(counted(table) + len(calls).to_bytes(4, "little") + texts)
        octets = sum(len(first) + len(second) for first, second in calls) // len(calls)
        lines.append("\t".join([name, call, ",".join(programs), group, str(number), str(used), str(octets)]))
    (folder / "cases.tsv").write_text("".join(line + "\n" for line in lines))


if __name__ == "__main__":
    write_all(Path(sys.argv[1]), "--few" in sys.argv)
