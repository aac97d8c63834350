"""Recommending: refusals 1, 2 and 10, the advice, the quick answer, and the target keys."""

from scope import table as tables
from scope.address import addresses
from scope.table import DIRECT_KEY_AT, GOSSIP_KEY_AT, SLOT, Entry

# A1: the advices from low to high, and what comes with a refusal.
REFUSED = 0
DISABLE = 1
DISCOURAGE = 2
AVAILABLE = 3
ENCRYPT = 4

# R10: no more recipients than these.
RECIPIENTS_LIMIT = 100

# A3: 35 days in seconds.
GAP_LIMIT = 3_024_000


def recommend(table: bytes, recipients: bytes, mutual: bool, reply: bool) -> tuple[int, int, int]:
    """The refusal number, 0 for none, the index that 2 carries, and the advice.

    `mutual` is the sender's own preference; `reply` says that the mail replies to an
    encrypted one.
    """
    refusal, index, found = listed(table, recipients)
    if refusal != 0:
        return refusal, index, REFUSED
    held = tables.entries(table)
    # A1: the advice of the whole list.
    advices = [advice_for(entry_for(held, address), mutual, reply) for address in found]
    return 0, 0, whole_list(advices)


def quick(table: bytes, recipients: bytes, mutual: bool, reply: bool) -> tuple[int, int, int, int]:
    """The refusal number, 0 for none, the index that 2 carries, the advice, and how many
    recipients were looked up."""
    # A14: the list is read to its end before anyone is looked up. A13: a refusal counts none.
    refusal, index, found = listed(table, recipients)
    if refusal != 0:
        return refusal, index, REFUSED, 0
    held = tables.entries(table)
    lowest, looked_up = ENCRYPT, 0
    # A12: one after the other, in the order of the list.
    for address in found:
        # A13: each one counts, from 1, whether it stood there before or not.
        looked_up += 1
        advice = advice_for(entry_for(held, address), mutual, reply)
        # A12: the first with disable is the last that is looked up. A5: disable is the answer then.
        if advice == DISABLE:
            return 0, 0, DISABLE, looked_up
        # A5: without one it is the lowest.
        lowest = min(lowest, advice)
    return 0, 0, lowest, looked_up


def listed(table: bytes, recipients: bytes) -> tuple[int, int, list[bytes]]:
    """The refusal number, 0 for none, the index that 2 carries, and the addresses of the list."""
    # R31: the refusals in their order. R1, R2: the table.
    refusal, index = tables.check(table)
    if refusal != 0:
        return refusal, index, []
    # R10: a list that is readable, with 1 to 100 addresses, each counted as often as it
    # stands. L19: as an argument it is read as it is. L17: it may have any length.
    found = addresses(recipients)
    if found is None or not 1 <= len(found) <= RECIPIENTS_LIMIT:
        return 10, 0, []
    return 0, 0, found


def entry_for(held: list[Entry | None], address: bytes) -> Entry | None:
    at = tables.find(held, address)
    return None if at is None else held[at]


def advice_for(entry: Entry | None, mutual: bool, reply: bool) -> int:
    """The advice for one recipient."""
    # A2: without an entry or a key, disable.
    if entry is None or (entry.direct_key is None and entry.gossip_key is None):
        return DISABLE
    # A2: gossip alone, discourage; a direct half, discourage or available. A3: the gap that
    # decides lies between last seen and the timestamp, and at the limit it is not yet wide.
    if entry.direct_key is None:
        preliminary = DISCOURAGE
    elif entry.last_seen - entry.autocrypt_timestamp > GAP_LIMIT:
        preliminary = DISCOURAGE
    else:
        preliminary = AVAILABLE
    # A4: a reply to an encrypted mail lifts both to encrypt; mutual on both sides lifts
    # available alone.
    if reply:
        return ENCRYPT
    if preliminary == AVAILABLE and entry.mutual and mutual:
        return ENCRYPT
    return preliminary


def whole_list(advices: list[int]) -> int:
    # A5: the first of these that fits, which is the lowest advice of the list.
    if DISABLE in advices:
        return DISABLE
    if all(advice == ENCRYPT for advice in advices):
        return ENCRYPT
    if DISCOURAGE in advices:
        return DISCOURAGE
    return AVAILABLE


def target_key(table: bytes, recipients: bytes, mutual: bool, reply: bool,
               place: int) -> tuple[int, int]:
    """Start and length of the part of the table that is a recipient's target key.

    (0, 0) is the empty part.
    """
    # A7: empty where the other call refuses. A8: to get disable because of someone else is
    # no refusal. A9: nothing else depends on preference and reply.
    refusal, _, _ = recommend(table, recipients, mutual, reply)
    if refusal != 0:
        return 0, 0
    # A10: places count the addresses in order, those of groups where they stand. A7: empty
    # past the list.
    found = addresses(recipients)
    if place >= len(found):
        return 0, 0
    held = tables.entries(table)
    at = tables.find(held, found[place])
    # A7: empty for a recipient without a key.
    if at is None:
        return 0, 0
    entry = held[at]
    # A2, A6: the direct key, else the gossip key, by its place in the table.
    if entry.direct_key is not None:
        return at * SLOT + DIRECT_KEY_AT[0], len(entry.direct_key)
    if entry.gossip_key is not None:
        return at * SLOT + GOSSIP_KEY_AT[0], len(entry.gossip_key)
    return 0, 0
