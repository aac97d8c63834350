"""Plain addresses, their canonical form, and lists of them."""

from scope import punycode, utf8
from scope.tokens import (QUOTE, atom_end, is_atom_octet, is_digit, is_letter, quoted, skip)

# L6, L7: no more octets than these in a local part, in the form of a label and in that of an address.
LOCAL_LIMIT = 64
LABEL_LIMIT = 63
ADDRESS_LIMIT = 254

# L22: what the form of a label opens with that is not in ASCII.
PREFIX = b"xn--"

LESS, GREATER, COMMA, COLON, SEMICOLON, DOT, AT = b"<>,:;.@"
HYPHEN = ord("-")


def is_plain(octets: bytes) -> bool:
    """Whether the octets are a plain address and nothing else."""
    # L6: one `@`; neither side may hold another.
    if octets.count(b"@") != 1:
        return False
    local, domain = octets.split(b"@")
    if not is_local_part(local) or not is_domain(domain):
        return False
    # L6: the canonical form is not longer than this; the address itself may have any length.
    return len(form_of(local, domain)) <= ADDRESS_LIMIT


def is_local_part(octets: bytes) -> bool:
    # L6: atoms with single dots between them, in 1 to 64 octets.
    if not 1 <= len(octets) <= LOCAL_LIMIT:
        return False
    return all(is_atom(atom) for atom in octets.split(b"."))


def is_atom(octets: bytes) -> bool:
    return len(octets) >= 1 and all(is_atom_octet(octet) for octet in octets)


def is_domain(octets: bytes) -> bool:
    # L7: labels with single dots between them; one label will do.
    return all(is_label(label) for label in octets.split(b"."))


def is_label(octets: bytes) -> bool:
    # L7: as it stands, one octet or more, and the hyphens stand inside.
    if len(octets) == 0 or octets[0] == HYPHEN or octets[-1] == HYPHEN:
        return False
    # L7: letters, digits, hyphens, and what is beyond ASCII.
    if not all(is_label_octet(octet) or octet >= 128 for octet in octets):
        return False
    # L7: it has a form, and that one is not longer than this.
    form = label_form(octets)
    return form is not None and len(form) <= LABEL_LIMIT


def is_label_octet(octet: int) -> bool:
    return is_letter(octet) or is_digit(octet) or octet == HYPHEN


def label_form(octets: bytes) -> bytes | None:
    """The form of a label; None where it has none."""
    # L22: in ASCII the capitals become small, also behind `xn--`, whether or not the rest decodes.
    if all(octet < 128 for octet in octets):
        return small_ascii(octets)
    # L22: any other label is well formed (L20), as a whole and apart from its neighbours.
    points = utf8.points(octets)
    if points is None:
        return None
    # L22: Punycode of the code points in lower case. Nothing else is asked of them.
    return PREFIX + punycode.encode([utf8.small(point) for point in points])


def canonical(octets: bytes) -> bytes:
    """The canonical form of a plain address; any other text as it is."""
    return form_of(*octets.split(b"@")) if is_plain(octets) else octets


def form_of(local: bytes, domain: bytes) -> bytes:
    # L8: the local part in lower case, the forms of the labels, and the dots between them.
    return small_local_part(local) + b"@" + b".".join(label_form(label) for label in domain.split(b"."))


def small_local_part(octets: bytes) -> bytes:
    # L20: the local part is judged as a whole, with its dots.
    points = utf8.points(octets)
    # L21: where it is not well formed, the ASCII capitals alone, on both sides of the fault.
    if points is None:
        return small_ascii(octets)
    # L21: else code point by code point.
    return utf8.encoded([utf8.small(point) for point in points])


def small_ascii(octets: bytes) -> bytes:
    """Small letters for ASCII capitals; no other change."""
    return bytes(octet + 32 if ord("A") <= octet <= ord("Z") else octet for octet in octets)


def is_canonical(octets: bytes) -> bool:
    # L8: a plain address that is its own canonical form.
    return is_plain(octets) and form_of(*octets.split(b"@")) == octets


def is_old_canonical(octets: bytes) -> bool:
    """Whether the octets were a canonical address while only ASCII capitals were made small."""
    # T16: whatever becomes of L6 to L8, this stays. The address itself has 254 octets at most, and
    # no ASCII capital.
    if len(octets) > 254 or small_ascii(octets) != octets:
        return False
    # T16: one `@`, a local part of L6, and labels in ASCII.
    if octets.count(b"@") != 1:
        return False
    local, domain = octets.split(b"@")
    return is_local_part(local) and all(is_old_label(label) for label in domain.split(b"."))


def is_old_label(octets: bytes) -> bool:
    # T16: ASCII alone, hyphens inside, of one octet up to 63.
    if not 1 <= len(octets) <= 63:
        return False
    if octets[0] == HYPHEN or octets[-1] == HYPHEN:
        return False
    return all(is_label_octet(octet) for octet in octets)


def addresses(value: bytes) -> list[bytes] | None:
    """The addresses of a list, as they stand and in order; None: unreadable."""
    # L9: places with commas between them, up to the end. L17: their addresses in order,
    # spelled as they are. L18: where nothing stands there is an empty place.
    read = places(value, skip(value, 0), False)
    if read is None:
        return None
    found, at = read
    return found if at == len(value) else None


# The readers below take the place of the first octet of what they read, behind all
# blanks and comments, and hand back what they found with the place behind it and
# behind the blanks and comments that follow; None where it is unreadable.

Read = tuple[list[bytes], int]


def places(s: bytes, at: int | None, inside_group: bool) -> Read | None:
    """One list place or more, separated by commas."""
    found: list[bytes] = []
    while True:
        # L13: an empty place has none of the three forms, so it is unreadable.
        read = place(s, at, inside_group)
        if read is None:
            return None
        found += read[0]
        at = read[1]
        if at == len(s) or s[at] != COMMA:
            return found, at
        at = skip(s, at + 1)


def place(s: bytes, at: int | None, inside_group: bool) -> Read | None:
    """One place of a list: a bare address, one in angle brackets, or a group."""
    if at is None or at == len(s):
        return None
    # L12: a run of atom octets and dots in which an `@` follows is an address. L15: so
    # no phrase holds one.
    if opens_address(s, at):
        return bare_address(s, at)
    behind = phrase(s, at)
    if behind is None or behind == len(s):
        return None
    # L9: an angle bracket, with a phrase in front of it or without.
    if s[behind] == LESS:
        return angle_address(s, behind)
    # L9, L14: a colon opens a group, but only behind a phrase. L15: and not in a group.
    if s[behind] == COLON and behind > at and not inside_group:
        return group(s, behind)
    return None


def opens_address(s: bytes, at: int) -> bool:
    while at < len(s) and (is_atom_octet(s[at]) or s[at] == DOT):
        at += 1
    return at < len(s) and s[at] == AT


def address_end(s: bytes, at: int) -> int:
    """The end of the run of octets that may belong to one address."""
    while at < len(s) and (is_atom_octet(s[at]) or s[at] in (DOT, AT)):
        at += 1
    return at


def bare_address(s: bytes, at: int) -> Read | None:
    # L12: the run is taken whole, octets of 128 and above in the domain too, and all of it has to be
    # a plain address; the caller sees to what ends it. L11: so neither blank nor comment stands inside. L16: where it
    # is not plain the whole list is unreadable.
    end = address_end(s, at)
    if not is_plain(s[at:end]):
        return None
    behind = skip(s, end)
    return None if behind is None else ([s[at:end]], behind)


def angle_address(s: bytes, at: int) -> Read | None:
    # L11: blanks and comments may stand on both sides of the address. L15: nothing at
    # all, a route, quotes before the `@` and brackets behind it are no plain address.
    start = skip(s, at + 1)
    if start is None:
        return None
    read = bare_address(s, start)
    if read is None:
        return None
    found, at = read
    if at == len(s) or s[at] != GREATER:
        return None
    behind = skip(s, at + 1)
    return None if behind is None else (found, behind)


def group(s: bytes, at: int) -> Read | None:
    """The rest of a group from its colon."""
    start = skip(s, at + 1)
    if start is None or start == len(s):
        return None
    # L14: a group may hold nothing but blanks and comments, and gives no address then.
    if s[start] == SEMICOLON:
        found, at = [], start
    else:
        read = places(s, start, True)
        if read is None:
            return None
        found, at = read
    # L14: a group ends with its semicolon. Behind that a comma or the end must follow,
    # which `places` and `addresses` see to.
    if at == len(s) or s[at] != SEMICOLON:
        return None
    behind = skip(s, at + 1)
    return None if behind is None else (found, behind)


def phrase(s: bytes, at: int) -> int | None:
    """The place behind the words from `at`, `at` itself if there is none; None: unreadable."""
    # L10: words are atoms, dots and quoted strings, and may touch one another.
    while at < len(s):
        if s[at] == DOT:
            behind = at + 1
        elif s[at] == QUOTE:
            closed = quoted(s, at)
            if closed is None:
                return None
            behind = closed
        elif is_atom_octet(s[at]):
            behind = atom_end(s, at)
        else:
            return at
        skipped = skip(s, behind)
        if skipped is None:
            return None
        at = skipped
    return at
