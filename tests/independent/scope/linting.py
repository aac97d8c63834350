"""Looking an outgoing mail over: refusals 4, 5, 7 and 12, and what is wrong with its fields."""

from scope import base64, header, keyfield
from scope.address import canonical, is_plain
from scope.processing import Fields, recipients_of, sender_of

# O2: the two blocks.
OUTER = 0
PAYLOAD = 1

# O3: the kinds of faults.
NO_VALID = 1
MORE_VALID = 2
WRONG_ADDRESS = 3
UNKNOWN_ATTRIBUTE = 4
KEY_DATA = 5
GOSSIP_OUTSIDE = 6
GOSSIP_UNLISTED = 7
GOSSIP_PREFERENCE = 8

# O2: a block, a place and a kind.
Fault = tuple[int, int, int]

# O11: no two blocks have more faults.
FAULTS_LIMIT = 32_768


def lint(outer: bytes, payload: bytes, room: int) -> tuple[int, list[Fault]]:
    """The refusal number, 0 for none, and the faults; none of them where refused.

    `room` is how many numbers are lent. A mail without a payload has one of no octets here.
    """
    # O1, R31: four refusals in this order. A report is not among them: no Content-Type is asked.
    # R4: the outer block is unreadable.
    outer_fields = header.fields(outer)
    if outer_fields is None:
        return 4, []
    # R5: there is no sender, or more than one.
    sender = sender_of(outer_fields)
    if sender is None:
        return 5, []
    # R7: the payload is unreadable; nothing has to be taken here. O1: one without octets is none, and has no fields.
    payload_fields = header.fields(payload)
    if payload_fields is None:
        return 7, []
    # R12: fewer than three numbers are lent for each fault.
    found = faults(outer_fields, payload_fields, sender)
    if room < 3 * len(found):
        return 12, []
    return 0, found


def faults(outer_fields: Fields, payload_fields: Fields, sender: bytes) -> list[Fault]:
    """All faults of a mail, in order."""
    found = []
    # O3: kind 1 is about the whole outer block, and has place 0.
    valid = valid_places(outer_fields, sender)
    if valid == []:
        found.append((OUTER, 0, NO_VALID))
    # O6: who is a recipient is said by the outer block, for gossip of both blocks.
    recipients = recipients_of(outer_fields)
    # O2: places count all fields from 1. O4: the outer block first, each block by place.
    for place, (name, value) in enumerate(outer_fields, 1):
        if is_autocrypt(name):
            found += [(OUTER, place, kind) for kind in autocrypt_kinds(value, sender, place in valid[1:])]
        if is_gossip(name):
            found += [(OUTER, place, kind) for kind in gossip_kinds(value, recipients, True)]
    # O3: of the payload gossip alone is looked at.
    for place, (name, value) in enumerate(payload_fields, 1):
        if is_gossip(name):
            found += [(PAYLOAD, place, kind) for kind in gossip_kinds(value, recipients, False)]
    return found


def is_autocrypt(name: bytes) -> bool:
    return header.same_name(name, b"Autocrypt")


def is_gossip(name: bytes) -> bool:
    return header.same_name(name, b"Autocrypt-Gossip")


def valid_places(outer_fields: Fields, sender: bytes) -> list[int]:
    """The places of the valid Autocrypt fields of the outer block."""
    return [place for place, (name, value) in enumerate(outer_fields, 1)
            if is_autocrypt(name) and is_valid(value, sender)]


def is_valid(value: bytes, sender: bytes) -> bool:
    # O5: valid as it is for F12, in form and for the sender.
    field = keyfield.read(value)
    return field is not None and field.address == sender


# The next two ask a field for its kinds one after the other, so that these rise, and each stands there once (O4).


def autocrypt_kinds(value: bytes, sender: bytes, is_another: bool) -> list[int]:
    """The faults of an Autocrypt field; `is_another` says that it is valid, and not the first such field."""
    kinds = []
    # O5: a valid field behind the first one, equal or not.
    if is_another:
        kinds.append(MORE_VALID)
    # O6: its address is not the sender's.
    if not is_about(value, [sender]):
        kinds.append(WRONG_ADDRESS)
    if has_unknown_attribute(value):
        kinds.append(UNKNOWN_ATTRIBUTE)
    if not has_key_data(value):
        kinds.append(KEY_DATA)
    return kinds


def gossip_kinds(value: bytes, recipients: list[bytes], is_outside: bool) -> list[int]:
    """The faults of a gossip field; `is_outside` says that it is not in the payload."""
    kinds = []
    if has_unknown_attribute(value):
        kinds.append(UNKNOWN_ATTRIBUTE)
    if not has_key_data(value):
        kinds.append(KEY_DATA)
    # O3: gossip of the outer block.
    if is_outside:
        kinds.append(GOSSIP_OUTSIDE)
    # O6: it is about nobody among the recipients.
    if not is_about(value, recipients):
        kinds.append(GOSSIP_UNLISTED)
    if has_preference(value):
        kinds.append(GOSSIP_PREFERENCE)
    return kinds


def attributes(value: bytes) -> list[tuple[bytes, bytes] | None]:
    """The pieces of a value, each by its name and its value; None for a piece that is no attribute."""
    # F1, F2: cut at every `;`, and at the first `=`. O7: without `=` or with an empty name it is no fault by itself.
    return [keyfield.part(piece) for piece in value.split(b";")]


def values_named(name: bytes, value: bytes) -> list[bytes]:
    """The values of all attributes of one name."""
    return [attribute[1] for attribute in attributes(value) if attribute is not None and attribute[0] == name]


def is_about(value: bytes, wanted: list[bytes]) -> bool:
    """Whether the address of a field is right: one of those wanted, which are in canonical form."""
    # O6: exactly one `addr`, plain, and one of them; what else there is does not matter.
    named = values_named(b"addr", value)
    return len(named) == 1 and is_plain(named[0]) and canonical(named[0]) in wanted


def has_unknown_attribute(value: bytes) -> bool:
    # O7: a name that is none of the three and does not open with `_`.
    for attribute in attributes(value):
        if attribute is None:
            continue
        name, _ = attribute
        if name not in (b"addr", b"prefer-encrypt", b"keydata") and not name.startswith(b"_"):
            return True
    return False


def has_key_data(value: bytes) -> bool:
    """Whether key data is as it should be."""
    # O8: exactly one `keydata`, and behind it no piece, not even an empty one.
    last = attributes(value)[-1]
    if len(values_named(b"keydata", value)) != 1 or last is None or last[0] != b"keydata":
        return False
    # O8: Base64 by F9, of however many octets.
    return base64.decode(last[1]) is not None


def has_preference(value: bytes) -> bool:
    # O9: a `prefer-encrypt` of any value.
    return len(values_named(b"prefer-encrypt", value)) >= 1
