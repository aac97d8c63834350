"""Base64 (RFC 4648, section 4), as key data is read and written."""

# F9: the characters for 0 to 63, and the one that pads.
ALPHABET = b"ABCDEFGHIJKLMNOPQRSTUVWXYZabcdefghijklmnopqrstuvwxyz0123456789+/"
PAD = b"="

# W4: a line is so long, but for the last one.
LINE = 76


def decode(text: bytes) -> bytes | None:
    """The octets that `text` stands for; None where it is not Base64.

    No limit on the length stands here; no characters decode to no octets.
    """
    # F9: blanks are taken out first, wherever they are. F10: a CR is none, and like any
    # other octet outside the alphabet it is no Base64.
    characters = bytes(octet for octet in text if octet not in b" \t")
    # F9: whole groups of four, so that padding must be there.
    if len(characters) % 4 != 0:
        return None
    octets = bytearray()
    groups = [characters[at:at + 4] for at in range(0, len(characters), 4)]
    for place, group in enumerate(groups):
        part = decode_group(group, place == len(groups) - 1)
        if part is None:
            return None
        octets += part
    return bytes(octets)


def decode_group(group: bytes, last: bool) -> bytes | None:
    """The one to three octets of four characters; None where they are no Base64."""
    # F9: only the last group is padded, by one `=` or two at its end.
    if last and group[2:4] == PAD + PAD:
        digits = group[0:2]
    elif last and group[3:4] == PAD:
        digits = group[0:3]
    else:
        digits = group
    bits = 0
    for digit in digits:
        if digit not in ALPHABET:
            return None
        bits = bits * 64 + ALPHABET.index(digit)
    # F9: unused bits are zero. Four characters hold 24 bits and use all, three hold 18 and
    # use 16, two hold 12 and use 8.
    unused = {4: 0, 3: 2, 2: 4}[len(digits)]
    if bits % (1 << unused) != 0:
        return None
    return (bits >> unused).to_bytes(len(digits) - 1, "big")


def encode(octets: bytes) -> bytes:
    """The padded Base64 of `octets`, on one line."""
    return b"".join(encode_group(octets[at:at + 3]) for at in range(0, len(octets), 3))


def encode_group(octets: bytes) -> bytes:
    """The four characters for one to three octets."""
    # F9: missing octets count as zero bits; the characters that would hold only such
    # bits are written as padding.
    bits = int.from_bytes(octets + bytes(3 - len(octets)), "big")
    characters = bytes(ALPHABET[(bits >> shift) % 64] for shift in (18, 12, 6, 0))
    return characters[:len(octets) + 1] + PAD * (3 - len(octets))


def lines(octets: bytes) -> bytes:
    """The Base64 of `octets` in the lines of a written field."""
    # W4: each line has a space in front and CRLF behind; no empty line follows a full one.
    text = encode(octets)
    return b"".join(b" " + text[at:at + LINE] + b"\r\n" for at in range(0, len(text), LINE))
