"""Processing a message: refusals 1 to 8, and the update of the table."""

from dataclasses import replace

from scope import date, header, keyfield, table as tables
from scope.address import addresses, canonical
from scope.keyfield import Field
from scope.table import Entry

# G1: the gossip setting, as C numbers it.
UNSET = 0
TAKE = 1
SKIP = 2

Fields = list[tuple[bytes, bytes]]


def process(table: bytes, receipt: int, outer: bytes, payload: bytes,
            gossip: int) -> tuple[int, int, bytes]:
    """The refusal number, 0 for none, the index that 2 carries, and the table after.

    A mail without a payload has one of no octets here (U1).
    """
    # U2, R31: the refusals in order, of which the first that holds is given. R32: the table
    # is then handed back as it came. R35: 3 to 7 also where nothing would change.
    # R1, R2: the table. R33: an index comes with 2 alone.
    refusal, index = tables.check(table)
    if refusal != 0:
        return refusal, index, table
    # R3: the receipt time is above the largest time.
    if receipt > tables.TIME_LIMIT:
        return 3, 0, table
    # R4: the outer block is unreadable.
    outer_fields = header.fields(outer)
    if outer_fields is None:
        return 4, 0, table
    # R5: there is no sender, or more than one. R36: such mail, and reports, are refused here.
    sender = sender_of(outer_fields)
    if sender is None:
        return 5, 0, table
    # R6: some Content-Type of the outer block is a report; that of the payload is not asked.
    if any(header.is_report(value) for value in header.values_of(outer_fields, b"Content-Type")):
        return 6, 0, table
    # R7: the payload of gossip that is taken is unreadable. G2: one that is not taken is not
    # looked at. G3: without octets it has no fields and gives no 7.
    payload_fields: Fields | None = []
    if is_taken(gossip):
        payload_fields = header.fields(payload)
    if payload_fields is None:
        return 7, 0, table

    # B12: these fields of the outer block count, and no others of the payload than gossip.
    # D14: one effective date serves for all of the message.
    effective = date.effective(header.values_of(outer_fields, b"Date"), receipt)
    counted = keyfield.counted(header.values_of(outer_fields, b"Autocrypt"), sender)
    accepted = accepted_gossip(outer_fields, payload_fields)

    # R8: more new entries are needed than there are free slots.
    held = tables.entries(table)
    new = newcomers(held, sender, accepted)
    free = tables.free_slots(held)
    if len(new) > len(free):
        return 8, 0, table
    # U4: each newcomer, in order, takes the free slot with the lowest index.
    for address, lowest in zip(new, free):
        held[lowest] = Entry(address)
    at = tables.find(held, sender)
    held[at] = with_sender(held[at], effective, counted)
    # G9: one accepted field after the other, so that the last one about an address stays.
    for field in accepted:
        at = tables.find(held, field.address)
        held[at] = with_gossip(held[at], effective, field)
    return 0, 0, tables.table_of(held)


def is_taken(gossip: int) -> bool:
    # G1: take alone takes; skip does not, nor does unset, which every other number is.
    return gossip == TAKE


def sender_of(outer_fields: Fields) -> bytes | None:
    """The sender in canonical form; None gives 5."""
    # R5: one From field.
    froms = header.values_of(outer_fields, b"From")
    if len(froms) != 1:
        return None
    # R5: a readable list that gives one address. U3: that address in canonical form, be it
    # in a group or beside empty groups.
    found = addresses(froms[0])
    if found is None or len(found) != 1:
        return None
    return canonical(found[0])


def recipients_of(outer_fields: Fields) -> list[bytes]:
    """The recipients of a message, in canonical form."""
    # G4: each field of the three names by itself; one that is unreadable gives nothing, and
    # hides nothing of the others. B12: no other field is looked at.
    found = []
    for name in (b"To", b"Cc", b"Reply-To"):
        for value in header.values_of(outer_fields, name):
            for address in addresses(value) or []:
                found.append(canonical(address))
    return found


def accepted_gossip(outer_fields: Fields, payload_fields: Fields) -> list[Field]:
    """The accepted gossip fields, in order."""
    # G5: in the order of the payload, those that are valid in form and about a recipient;
    # to be the sender is not enough. G6: the others do nothing.
    recipients = recipients_of(outer_fields)
    read = [keyfield.read(value) for value in header.values_of(payload_fields, b"Autocrypt-Gossip")]
    return [field for field in read if field is not None and field.address in recipients]


def newcomers(held: list[Entry | None], sender: bytes, accepted: list[Field]) -> list[bytes]:
    """The distinct addresses without an entry, in the order in which they take slots."""
    # U4: the sender, then the addresses of accepted gossip. U5: the sender also without a
    # key. G10: an address stands where it was first accepted. R8: and counts once.
    new: list[bytes] = []
    for address in [sender] + [field.address for field in accepted]:
        if tables.find(held, address) is None and address not in new:
            new.append(address)
    return new


def with_sender(entry: Entry, effective: int, counted: Field | None) -> Entry:
    """The sender's entry after a message of the given effective date."""
    # U6: a direct half with a timestamp above the date stays, and last seen with it.
    if entry.direct_key is not None and effective < entry.autocrypt_timestamp:
        return entry
    # U7: last seen rises to the date, and never falls.
    if entry.last_seen is None or entry.last_seen < effective:
        entry = replace(entry, last_seen=effective)
    # U8: the direct half becomes that of the counted field, its preference or lack of one
    # included. U9: without such a field it stays.
    if counted is not None:
        entry = replace(entry, autocrypt_timestamp=effective, direct_key=counted.key,
                        mutual=counted.mutual)
    return entry


def with_gossip(entry: Entry, effective: int, field: Field) -> Entry:
    """The entry of a gossiped address after one accepted field."""
    # G7: a gossip half with a timestamp above the date stays; an equal date replaces.
    if entry.gossip_timestamp is not None and entry.gossip_timestamp > effective:
        return entry
    # G7: the date and the key; its preference is ignored. G8: nothing else changes.
    return replace(entry, gossip_timestamp=effective, gossip_key=field.key)
