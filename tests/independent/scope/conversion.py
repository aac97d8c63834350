"""Converting a table of the old canonical form."""

from scope import table as tables
from scope.address import canonical
from scope.table import Entry


def convert(table: bytes) -> tuple[int, int, bytes]:
    """The refusal number, 0 for none, the index that 2 carries, and the table after."""
    # T16: refusals 1 and 2, the second by the old rule. R32: the table is then handed back as it
    # came.
    refusal, index = tables.check_by_old_rule(table)
    if refusal != 0:
        return refusal, index, table
    return 0, 0, tables.table_of(converted(tables.entries(table)))


def converted(held: list[Entry | None]) -> list[Entry | None]:
    """What each slot holds after the conversion; None for a free one."""
    # T17: each used slot gets the canonical form of its address.
    forms = [None if entry is None else canonical(entry.address) for entry in held]
    after: list[Entry | None] = []
    for slot, form in enumerate(forms):
        # T17: the lowest slot with a form holds the merged entry, whatever its spelling was. The
        # others become free. A free slot stays so, and none moves.
        if form is None or form in forms[:slot]:
            after.append(None)
        else:
            after.append(merged(form, [entry for entry, other in zip(held, forms) if other == form]))
    return after


def merged(form: bytes, group: list[Entry]) -> Entry:
    """The entry of a group, which stands in the order of its slots."""
    # T18: the largest last seen, wherever the halves come from. What is absent takes no part, so
    # that it is below all that is present, time 0 too.
    seen = [entry.last_seen for entry in group if entry.last_seen is not None]
    entry = Entry(form, max(seen, default=None))
    # T18: the direct half with the largest timestamp, as a whole.
    direct = youngest([(one.autocrypt_timestamp, one) for one in group if one.direct_key is not None])
    if direct is not None:
        entry.autocrypt_timestamp = direct.autocrypt_timestamp
        entry.direct_key = direct.direct_key
        entry.mutual = direct.mutual
    # T18: the gossip half with the largest timestamp, as a whole.
    gossip = youngest([(one.gossip_timestamp, one) for one in group if one.gossip_key is not None])
    if gossip is not None:
        entry.gossip_timestamp = gossip.gossip_timestamp
        entry.gossip_key = gossip.gossip_key
    return entry


def youngest(dated: list[tuple[int, Entry]]) -> Entry | None:
    """The entry with the largest timestamp; None where there is none at all."""
    found: tuple[int, Entry] | None = None
    for timestamp, entry in dated:
        # T18: of equal ones that of the lowest slot, which came first.
        if found is None or timestamp > found[0]:
            found = timestamp, entry
    return None if found is None else found[1]
