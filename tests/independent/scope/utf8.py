"""UTF-8 as RFC 3629 has it, and the lower case of code points."""

from dataclasses import dataclass


@dataclass(frozen=True)
class Form:
    """One way to write a code point: a row of the table of RFC 3629, section 3."""
    octets: int  # how many there are
    opening: int  # the upper bits of the first octet
    bits: int  # how many lower bits it has, which are the upper ones of the code point
    least: int  # the code points that are written so
    most: int


# L20: these are no code points of a text.
FIRST_SURROGATE = 0xD800
LAST_SURROGATE = 0xDFFF

# L20: nor is any above this one.
LAST_POINT = 0x10_FFFF

# L20: one to four octets. No code point is written in more than it needs, and none lies above
# U+10FFFF.
FORMS = (
    Form(1, 0b0, 7, 0x0, 0x7F),
    Form(2, 0b110, 5, 0x80, 0x7FF),
    Form(3, 0b1110, 4, 0x800, 0xFFFF),
    Form(4, 0b11110, 3, 0x1_0000, LAST_POINT),
)

# Each octet behind the first one has these upper bits, and six lower ones of the code point.
BEHIND = 0b10
BEHIND_BITS = 6

# L21: the first and the last of each range of capitals, and how far off their small letters are.
CAPITALS = (
    (0x41, 0x5A, 32),
    (0xC0, 0xDE, 32),
    (0x391, 0x3AB, 32),
    (0x410, 0x42F, 32),
    (0x400, 0x40F, 80),
)

# L21: inside the ranges, but no capitals.
NO_CAPITALS = (0xD7, 0x3A2)


def points(octets: bytes) -> list[int] | None:
    """The code points of a text; None where it is not well formed."""
    found = []
    at = 0
    while at < len(octets):
        form = opened_by(octets[at])
        if form is None:
            return None
        point = point_of(form, octets[at:at + form.octets])
        if point is None:
            return None
        found.append(point)
        at += form.octets
    return found


def opened_by(octet: int) -> Form | None:
    """The form that an octet opens; None where it opens none."""
    for form in FORMS:
        if octet >> form.bits == form.opening:
            return form
    return None


def point_of(form: Form, octets: bytes) -> int | None:
    """The code point of a form that opens the octets; None where it is none of a text."""
    # L20: all octets are there.
    if len(octets) != form.octets or any(octet >> BEHIND_BITS != BEHIND for octet in octets[1:]):
        return None
    point = octets[0] - (form.opening << form.bits)
    for octet in octets[1:]:
        point = (point << BEHIND_BITS) + octet - (BEHIND << BEHIND_BITS)
    # L20: no more octets than it needs, and nothing above U+10FFFF.
    if not form.least <= point <= form.most:
        return None
    # L20: no surrogate.
    if FIRST_SURROGATE <= point <= LAST_SURROGATE:
        return None
    return point


def encoded(text: list[int]) -> bytes:
    """The octets of code points."""
    return b"".join(octets_of(point) for point in text)


def octets_of(point: int) -> bytes:
    # L20: in as many octets as it needs.
    form = next(form for form in FORMS if point <= form.most)
    behind = []
    for _ in range(form.octets - 1):
        behind.insert(0, (BEHIND << BEHIND_BITS) + point % (1 << BEHIND_BITS))
        point >>= BEHIND_BITS
    return bytes([(form.opening << form.bits) + point] + behind)


def small(point: int) -> int:
    """The small letter of a capital; every other code point itself."""
    # L21: five ranges without two code points; each other one stays.
    for first, last, further in CAPITALS:
        if first <= point <= last and point not in NO_CAPITALS:
            return point + further
    return point
