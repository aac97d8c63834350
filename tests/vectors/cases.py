"""The stored cases of the programs `vectors` and `listing`: what they are given, and what the independent program says.

    python3 tests/vectors/cases.py     writes crates/vectors/{stdin,stdout} and crates/listing/{stdin,stdout}
"""
import sys
from pathlib import Path

ROOT = Path(__file__).resolve().parents[2]
sys.path.insert(0, str(ROOT / "tests" / "independent"))

import rfc3492  # noqa: E402
from scope import base64, date, listing, punycode, table, tokens, utf8  # noqa: E402

CRATES = ROOT / "crates"

# C15: RFC 4648, section 10
PLAIN = [b"", b"f", b"fo", b"foo", b"foob", b"fooba", b"foobar"]

TEXTS = [base64.encode(octets) for octets in PLAIN] + [
    b"Zh==", b"Zg", b"Zg=", b"Zg===", b"Z", b"=", b"====", b"Zm9=", b"Zm9", b"Zm9v=", b"Zg==Zg==", b"Z=g=", b"Zm8=Zm9v",
    b" Zm 9v\t", b"Z\tg = =", b"Zm9v\r", b"Zm9-", b"Zm_v", b"//79", b"\xffm9v",
]

# W4: 57 octets fill a line of 76 characters; no octets have no line, and so are no case
KEYS = PLAIN[1:] + [b"a" * 56, b"b" * 57, b"c" * 58, b"d" * 114, b"e" * 115]

COMMENTS = [
    b"", b"x", b" \t x", b"(a)b", b"(a", b"a)", b"(a(b)c) (d)e", b"(\\))x", b"(\\", b"(\\()x", b'(")x', b"(\x7f)", b"(\x01)",
    b"(\\\x01)", b"(\t)x", b"(\x80\xff)x", b"\x01", b"()()x", b")x",
    b"(" * 16 + b")" * 16 + b"x", b"(" * 17 + b")" * 17 + b"x", b"(" * 16 + b"\\(" + b")" * 16, b"(" * 16 + b")" * 15,
]

QUOTED = [
    b'""', b'"a"b', b'"a', b'"\\""x', b'"\\', b'"\\"', b'"()"x', b'"\x01"', b'"\\\x01"', b'"\x7f"', b'"\t"x', b'"\x80\xff"x', b'" "',
]

DATES = [
    # C14: examples that are proved
    b"1 Jan 1970 00:00:00 +0000", b"1 Jan 1970 00:30 +0100", b"1 Mar 2000 00:00:00 -0100", b"29 Feb 1900 00:00 GMT",
    # both ends of each limit
    b"0 Jan 2000 00:00 GMT", b"31 Jan 2000 00:00 GMT", b"32 Jan 2000 00:00 GMT", b"30 Apr 2000 00:00 GMT", b"31 Apr 2000 00:00 GMT",
    b"28 Feb 1999 00:00 GMT", b"29 Feb 1999 00:00 GMT", b"29 Feb 2000 00:00 GMT", b"29 Feb 2100 00:00 GMT", b"29 Feb 2400 00:00 GMT",
    b"1 Jan 2000 23:59:60 GMT", b"1 Jan 2000 24:00 GMT", b"1 Jan 2000 00:60 GMT", b"1 Jan 2000 00:00:61 GMT",
    b"1 Jan 2000 00:00 +9959", b"1 Jan 2000 00:00 -9959", b"1 Jan 2000 00:00 +0060", b"1 Jan 2000 00:00 +000", b"1 Jan 2000 00:00 +00000",
    b"1 Jan 1900 00:00 GMT", b"1 Jan 1899 00:00 GMT", b"31 Dec 9999 23:59:60 GMT", b"1 Jan 10000 00:00 GMT",
    b"1 Jan 00 00:00 GMT", b"1 Jan 49 00:00 GMT", b"1 Jan 50 00:00 GMT", b"1 Jan 99 00:00 GMT", b"1 Jan 000 00:00 GMT", b"1 Jan 070 00:00 GMT",
    b"1 Jan 999 00:00 GMT", b"1 Jan 7 00:00 GMT", b"001 Jan 2000 00:00 GMT",
    # D4, D5, D7, D12: names, zones and tokens
    b"Mon, 1 Jan 2001 00:00 EST", b"mon,1jan70 00:00:03z", b"Monday, 1 Jan 2001 00:00 GMT", b"Mon 1 Jan 2001 00:00 GMT",
    b"Abc, 1 Jan 2001 00:00 GMT", b"1 Jan 2001 00:00 EDT", b"1 Jan 2001 00:00 CST", b"1 Jan 2001 00:00 CDT", b"1 Jan 2001 00:00 MST",
    b"1 Jan 2001 00:00 MDT", b"1 Jan 2001 00:00 PST", b"1 Jan 2001 00:00 pdt", b"1 Jan 2001 00:00 UT", b"1 Jan 2001 00:00 nowhere",
    b"1 Jan 2001 00:00 GMT+0100", b"1 Jan 2001 00:00 EST5EDT", b"1 Jan 2001 00:00", b"1 Jan 2001 00:00 + 0100", b"1 Jan 20()01 00:00 GMT",
    b"(a)1(b)Jan(c)2001(d)00(e):(f)00(g):(h)00(i)+0000(j)", b"1 Jan 2001 00:00 GMT (\x01)", b"1 Jan 2001 00:00 GMT\r", b"",
]

# D8, D9: the turns of centuries, both ends of a cycle of 400 years, of the years that can be written and of those before
# 1970, and texts that are no year
YEARS = [b"1900", b"1969", b"1999", b"2000", b"2099", b"2100", b"2399", b"2400", b"9999", b"1899", b"10000"]

# How many code points a case may have, and how many octets their code.
ROOM = 256

# L20, L21, L23: texts that are coded
SCRIPTS = [utf8.encoded(rfc3492.points(letter)) for letter in rfc3492.SAMPLES] + [text.encode() for text in [
    "", "a", "-", "--", "A", "bücher", "BÜCHER", "ö", "é", "É", "ÉÉ", "é-é", "-é", "xn--é", "straße", "STRAẞE", "i\u0307", "\u0130",
    # both ends of each range of capitals, and what stands beside and between them
    "@AZ[", "¿ÀÞß", "Ö×Ø", "ΐΑΫά", "Ρ\u03a2Σ", "ϿЀЏАЯа", "ѐџ", "Ā", "\uff21", "\U00010400",
    # both ends of each number of octets, and beside the surrogates
    "\x01", "\x7f", "\x80", "\u07ff", "\u0800", "\ud7ff", "\ue000", "\uffff", "\U00010000", "\U0010ffff", "\U0010ffff\x01",
    # L22: 59 octets are the longest code of a label
    "é" * 57, "é" * 58, "他" * 57,
    # both ends of the room, for code points and for their code
    "a" * 255, "a" * 256, "\x80" * 256, "\x80" * 257, "é" * 254, "é" * 255, "\U0010ffff" * 252, "\U0010ffff" * 253,
]] + [
    # cut short, and no first octet
    b"\xc3", b"b\xc3", b"\xc3b", b"\xe2\x82", b"\xf0\x9f\x98", b"\x80", b"\xbf", b"\xff", b"b\xfccher", b"\xc3\xc3\xa9", b"\xc3\xa9\xa9",
    # more octets than needed, surrogates, and past U+10FFFF
    b"\xc0\x80", b"\xc1\xbf", b"\xe0\x9f\xbf", b"\xf0\x8f\xbf\xbf", b"\xed\xa0\x80", b"\xed\xbf\xbf", b"\xf4\x90\x80\x80", b"\xf5\x80\x80\x80",
]

# L23: texts that are decoded
CODES = [rfc3492.text(letter) for letter in rfc3492.SAMPLES] + [
    b"", b"a-", b"--", b"---", b"a", b"aa", b"ba", b"9ca", b"bcher-kva", b"nda", b"xn---epa", b"--9fab", b"dca", b"--bga", b"--a",
    # digits in any case
    b"BCHER-KVA", b"NDA", b"--9FAB", b"B1ABFAAEPDRNNBGEFBADOTCWATMQ2G4L", b"b1abfaaepdrnnbgefbadotcwatmq2g4l",
    # no digit, which a delimiter in the first place is not either
    b"-abc", b"-", b"-a", b"a-b_", b"a-\xc3", b"!", b"a b", b"a-b.", b"-> $1.00 <-x",
    # the last octet of ASCII before the delimiter, and beyond it
    b"\x7f-a", b"\x80-a", b"\xc3\xa9-9ca",
    # it ends inside a number
    b"b", b"z", b"9", b"9c", b"a-b-z", b"dn32", b"bcher-kv",
    # beside the surrogates, both ends of them, U+10FFFF, and past it
    b"hb9b", b"0y0c", b"ib9b", b"zy0c", b"dn32g", b"en32g",
    # far past it, also where a sum of 32 or 64 bits would come to U+00E9 again
    b"zzzzzzzz", b"99999a", b"99999999a", b"9" * 59, b"9" * 59 + b"a", b"z" * 256,
    *(punycode.variable_length((1 << bits) + 0xE9 - 0x80, punycode.INITIAL_BIAS) for bits in (32, 64)),
    # both ends of the room
    b"a" * 256, b"a" * 257, b"a" * 255 + b"-", b"a" * 256 + b"-", b"dn32g" + b"a" * 251, b"dn32g" + b"a" * 252,
]


def answer(kind: bytes, text: bytes) -> bytes:
    """What the program must print for a case."""
    if kind == b"b":
        octets = base64.decode(text)
        return (b"spoiled" if octets is None else octets.hex().encode()) + b"\n"
    if kind == b"e":
        return base64.lines(text)
    if kind in (b"k", b"q"):
        place = tokens.skip(text, 0) if kind == b"k" else tokens.quoted(text, 0)
        return (b"unreadable" if place is None else b"%d" % place) + b"\n"
    if kind == b"y":
        year = date.year_of(text)
        if year is None:
            return b"no year\n"
        first = date.days_from_1970(1900, 1, 1)
        months = [(date.days_from_1970(year, month, 1) - first, date.days_in_month(year, month)) for month in range(1, 13)]
        return b"".join(b"%d %d\n" % month for month in months)
    if kind == b"p":
        points = utf8.points(text)
        if points is None:
            return b"ill-formed\n"
        code = punycode.encode([utf8.small(point) for point in points])
        return (b"no room" if len(code) > ROOM else code) + b"\n"
    if kind == b"u":
        if len(text) > ROOM:
            return b"no room\n"
        points = punycode.decode(text)
        return (b"nothing" if points is None else utf8.encoded(points).hex().encode()) + b"\n"
    seconds = date.seconds(text)
    return (b"unavailable" if seconds is None else b"%d" % seconds) + b"\n"


def cases() -> list[tuple[bytes, bytes]]:
    kinds = ((b"b", TEXTS), (b"e", KEYS), (b"k", COMMENTS), (b"q", QUOTED), (b"d", DATES), (b"y", YEARS), (b"p", SCRIPTS), (b"u", CODES))
    return [(kind, text) for kind, texts in kinds for text in texts]


# W8, W9: a key with a preference, a free slot, an address alone, and both halves at both ends of their limits
ENTRIES = [
    table.Entry(b"alice@a.example", 1000, 1000, b"abc", True),
    None,
    table.Entry(b"b@c"),
    table.Entry(b"carol@c.example", table.TIME_LIMIT, 0, bytes(2048), False, table.TIME_LIMIT, b"g" * 2048),
    table.Entry("dörte@d.example".encode(), None, None, None, False, 0, b"\0"),
]


def files() -> dict[str, bytes]:
    """What the stored files must hold, by their place below crates/."""
    stored = table.table_of(ENTRIES)
    return {
        "vectors/stdin": b"".join(kind + b" " + text + b"\n" for kind, text in cases()),
        "vectors/stdout": b"".join(answer(kind, text) for kind, text in cases()),
        "listing/stdin": stored,
        "listing/stdout": listing.listing(stored),
    }


if __name__ == "__main__":
    for name, content in files().items():
        (CRATES / name).write_bytes(content)
