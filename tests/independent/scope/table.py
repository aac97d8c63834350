"""The table: its slots, their soundness, and the entries they hold."""

from collections.abc import Callable
from dataclasses import dataclass

from scope.address import canonical, is_canonical, is_old_canonical

# T1: the octets of a slot, and the slots that a table may have.
SLOT = 4_392
SLOTS_LIMIT = 256

# T4: the mark of a used slot. A free one is all zero, so its mark needs no look of its own.
USED = b"\x41\x31"

# T6: the largest time, the last second of the year 9999.
TIME_LIMIT = 253_402_300_799

# T8.6: the octets that a key may have.
KEY_LIMIT = 2_048

# T5: what the bits of octet 4 stand for.
LAST_SEEN = 1
DIRECT = 2
GOSSIP = 4
MUTUAL = 8

# T3: what stands where, by its first octet and the one behind its last.
MARK_AT = (0, 2)
ADDRESS_LENGTH_AT = (2, 4)
BITS_AT = 4
ZERO_AT = (5, 8)
LAST_SEEN_AT = (8, 16)
AUTOCRYPT_TIMESTAMP_AT = (16, 24)
GOSSIP_TIMESTAMP_AT = (24, 32)
DIRECT_LENGTH_AT = (32, 34)
GOSSIP_LENGTH_AT = (34, 36)
ZERO_TOO_AT = (36, 40)
ADDRESS_AT = (40, 296)
DIRECT_KEY_AT = (296, 2344)
GOSSIP_KEY_AT = (2344, 4392)

Place = tuple[int, int]
AddressTest = Callable[[bytes], bool]

# T14: a slot is told in so many numbers: whether it is used, its bits, last seen, the
# Autocrypt and the gossip timestamp, and start and length of address, direct key and gossip
# key.
NUMBERS = 11


@dataclass
class Entry:
    """What a used slot holds (T7). None stands for what is absent."""
    address: bytes
    last_seen: int | None = None
    autocrypt_timestamp: int | None = None  # present exactly when the direct key is
    direct_key: bytes | None = None
    mutual: bool = False
    gossip_timestamp: int | None = None  # present exactly when the gossip key is
    gossip_key: bytes | None = None


def octets(slot: bytes, place: Place) -> bytes:
    return slot[place[0]:place[1]]


# T2: the least octet comes first.
def number(slot: bytes, place: Place) -> int:
    return int.from_bytes(octets(slot, place), "little")


def is_zero(run: bytes) -> bool:
    return run == bytes(len(run))


def slots(table: bytes) -> list[bytes]:
    """The slots of a table of whole slots."""
    return [table[at:at + SLOT] for at in range(0, len(table), SLOT)]


def check(table: bytes) -> tuple[int, int]:
    """The refusal number a table gives, 0 for none, and the index that 2 carries."""
    # T8.2: addresses are canonical. T20: so an old spelling gives 2 in every call but `convert`.
    return refusal_by(is_canonical, table)


def check_by_old_rule(table: bytes) -> tuple[int, int]:
    """The same, where a table of the old canonical form is sound."""
    # T16, R2: another test of the address, and no other difference.
    return refusal_by(is_old_canonical, table)


def refusal_by(is_address: AddressTest, table: bytes) -> tuple[int, int]:
    """What a table gives where the addresses of sound slots pass the test."""
    # R1, T1: whole slots, at least 1 and at most 256.
    if len(table) % SLOT != 0 or not 1 <= len(table) // SLOT <= SLOTS_LIMIT:
        return 1, 0
    # R2: every slot is free or sound; the first one that is neither is answered.
    lower: list[bytes] = []
    for index, slot in enumerate(slots(table)):
        if is_free(slot):
            continue
        # T8.3: no lower slot has the address. T12: they are compared as they stand, and a
        # lower slot that is broken was answered before this one.
        if not is_sound_alone(slot, is_address) or address_of(slot) in lower:
            return 2, index
        lower.append(address_of(slot))
    return 0, 0


def is_free(slot: bytes) -> bool:
    # T4: every octet is zero, not the mark alone.
    return is_zero(slot)


def address_of(slot: bytes) -> bytes:
    return octets(slot, ADDRESS_AT)[:number(slot, ADDRESS_LENGTH_AT)]


def is_sound_alone(slot: bytes, is_address: AddressTest = is_canonical) -> bool:
    """Every condition of a sound used slot but that on the lower slots."""
    # T8.1: it opens with the mark.
    if octets(slot, MARK_AT) != USED:
        return False
    # T8.2: the address passes the test, that of a canonical one or the old one (T16). T9: by both
    # it ends at 254 octets, though the room has 256; a length beyond the room gives all of the
    # room, which is too long.
    if not is_address(address_of(slot)):
        return False
    # T8.4: no other bit is set, and the unused octets are zero.
    bits = slot[BITS_AT]
    if bits >= 16 or not is_zero(octets(slot, ZERO_AT)) or not is_zero(octets(slot, ZERO_TOO_AT)):
        return False
    # T8.5: no time is above the largest one, be it there or not.
    for place in (LAST_SEEN_AT, AUTOCRYPT_TIMESTAMP_AT, GOSSIP_TIMESTAMP_AT):
        if number(slot, place) > TIME_LIMIT:
            return False
    # T8.6: a key that is there has 1 to 2,048 octets.
    for bit, place in ((DIRECT, DIRECT_LENGTH_AT), (GOSSIP, GOSSIP_LENGTH_AT)):
        if bits & bit and not 1 <= number(slot, place) <= KEY_LIMIT:
            return False
    # T8.7: times and lengths of what is absent are zero. T7: so a half is there or not.
    if not bits & LAST_SEEN and number(slot, LAST_SEEN_AT) != 0:
        return False
    if not bits & DIRECT and (number(slot, AUTOCRYPT_TIMESTAMP_AT) != 0
                              or number(slot, DIRECT_LENGTH_AT) != 0):
        return False
    if not bits & GOSSIP and (number(slot, GOSSIP_TIMESTAMP_AT) != 0
                              or number(slot, GOSSIP_LENGTH_AT) != 0):
        return False
    # T8.8: behind the stored length each room is zero; of an absent key that is all of it.
    for length_place, place in ((ADDRESS_LENGTH_AT, ADDRESS_AT),
                                (DIRECT_LENGTH_AT, DIRECT_KEY_AT),
                                (GOSSIP_LENGTH_AT, GOSSIP_KEY_AT)):
        if not is_zero(octets(slot, place)[number(slot, length_place):]):
            return False
    # T8.9: a preference stands beside a direct half.
    if bits & MUTUAL and not bits & DIRECT:
        return False
    # T8.10: a direct half has last seen beside it, which is not before its timestamp. T11:
    # nothing of the kind is asked of gossip. T10: nor that any bit is set.
    if bits & DIRECT:
        if not bits & LAST_SEEN:
            return False
        if number(slot, LAST_SEEN_AT) < number(slot, AUTOCRYPT_TIMESTAMP_AT):
            return False
    return True


def entry_of(slot: bytes) -> Entry | None:
    """The entry of a sound slot; None for a free one."""
    if is_free(slot):
        return None
    # T6: the bits alone tell what is there, since 0 is a time.
    bits = slot[BITS_AT]
    entry = Entry(address_of(slot))
    if bits & LAST_SEEN:
        entry.last_seen = number(slot, LAST_SEEN_AT)
    if bits & DIRECT:
        entry.autocrypt_timestamp = number(slot, AUTOCRYPT_TIMESTAMP_AT)
        entry.direct_key = octets(slot, DIRECT_KEY_AT)[:number(slot, DIRECT_LENGTH_AT)]
        entry.mutual = bits & MUTUAL != 0
    if bits & GOSSIP:
        entry.gossip_timestamp = number(slot, GOSSIP_TIMESTAMP_AT)
        entry.gossip_key = octets(slot, GOSSIP_KEY_AT)[:number(slot, GOSSIP_LENGTH_AT)]
    return entry


def slot_of(entry: Entry | None) -> bytes:
    """The slot that holds an entry; the free slot for None."""
    if entry is None:
        return bytes(SLOT)
    slot = bytearray(SLOT)
    bits = 0
    put(slot, MARK_AT, USED)
    put_number(slot, ADDRESS_LENGTH_AT, len(entry.address))
    put(slot, ADDRESS_AT, entry.address)
    if entry.last_seen is not None:
        bits |= LAST_SEEN
        put_number(slot, LAST_SEEN_AT, entry.last_seen)
    if entry.direct_key is not None:
        bits |= DIRECT
        put_number(slot, AUTOCRYPT_TIMESTAMP_AT, entry.autocrypt_timestamp)
        put_number(slot, DIRECT_LENGTH_AT, len(entry.direct_key))
        put(slot, DIRECT_KEY_AT, entry.direct_key)
    if entry.mutual:
        bits |= MUTUAL
    if entry.gossip_key is not None:
        bits |= GOSSIP
        put_number(slot, GOSSIP_TIMESTAMP_AT, entry.gossip_timestamp)
        put_number(slot, GOSSIP_LENGTH_AT, len(entry.gossip_key))
        put(slot, GOSSIP_KEY_AT, entry.gossip_key)
    slot[BITS_AT] = bits
    return bytes(slot)


def put(slot: bytearray, place: Place, content: bytes) -> None:
    """Write content at the beginning of a place."""
    slot[place[0]:place[0] + len(content)] = content


def put_number(slot: bytearray, place: Place, value: int) -> None:
    put(slot, place, value.to_bytes(place[1] - place[0], "little"))


def entries(table: bytes) -> list[Entry | None]:
    """The entries of a sound table, one place per slot, None for the free ones."""
    return [entry_of(slot) for slot in slots(table)]


def table_of(held: list[Entry | None]) -> bytes:
    """The table that holds the given entries."""
    return b"".join(slot_of(entry) for entry in held)


def find(held: list[Entry | None], address: bytes) -> int | None:
    """The index of the entry of an address; None where there is none."""
    # T15, L8: canonical forms are compared, and entries hold them.
    wanted = canonical(address)
    for index, entry in enumerate(held):
        if entry is not None and entry.address == wanted:
            return index
    return None


def free_slots(held: list[Entry | None]) -> list[int]:
    """The indexes of the free slots, the lowest first."""
    return [index for index, entry in enumerate(held) if entry is None]


def entry_numbers(table: bytes, slot: int, room: int) -> tuple[int, int, list[int] | None]:
    """The refusal number, 0 for none, the index that 2 carries, and the numbers that tell a slot.

    `room` says how many numbers are lent; None stands for those of a call that refuses.
    """
    # T14, R31: refusals 1, 2 and 12, in this order.
    refusal, index = check(table)
    if refusal != 0:
        return refusal, index, None
    # R12: too few numbers are lent.
    if room < NUMBERS:
        return 12, 0, None
    # T14: a slot past the end reads like a free one.
    held = entries(table)
    entry = held[slot] if slot < len(held) else None
    if entry is None:
        return 0, 0, [0] * NUMBERS
    # T14: places count from the table's first octet.
    start = slot * SLOT
    return 0, 0, [
        1, table[start + BITS_AT],
        entry.last_seen or 0, entry.autocrypt_timestamp or 0, entry.gossip_timestamp or 0,
        *part(start + ADDRESS_AT[0], entry.address),
        *part(start + DIRECT_KEY_AT[0], entry.direct_key),
        *part(start + GOSSIP_KEY_AT[0], entry.gossip_key),
    ]


def part(start: int, content: bytes | None) -> tuple[int, int]:
    """Start and length of a part of the table; two zeros where it is absent (T14)."""
    return (0, 0) if content is None else (start, len(content))
