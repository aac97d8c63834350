#!/usr/bin/env python3
"""seeds.py KIND FOLDER COUNT: writes COUNT inputs for the fuzzing program KIND (messages or tables) into the folder, made of
the cases that the other tests are made of. VIENGHULAC_SEED=n makes other inputs.
"""
import os
import sys
from pathlib import Path

sys.path.insert(0, str(Path(__file__).resolve().parents[1] / "independent"))

from cases import Cases  # noqa: E402

END = b"\xfe\xfe"  # ends a run of octets; a run that holds it is cut there, and the rest is read as the next
SLOTS = 4
SLOT = 4_392
LONGEST_PATCH = 255
SHORT = 4_096  # most seeds are no longer: of short inputs a fuzzer tries many more


def one_message(cases: Cases) -> bytes:
    """The octet of choices (gossip setting, preference, reply, the moment), the two blocks and a list, which is often one
    address: it is also written and shown."""
    _, outer, payload, gossip = cases.message()
    choices = min(gossip, 3) | cases.random.randrange(64) << 2
    recipients = cases.recipients() if cases.chance(0.6) else cases.address()
    return bytes([choices]) + END.join([outer, payload, recipients]) + END


def messages(cases: Cases) -> bytes:
    many = cases.random.randint(1, 4)
    return bytes([cases.random.randrange(SLOTS)]) + b"".join(one_message(cases) for _ in range(many))


def patches(table: bytes) -> bytes:
    """What makes the table of zeros: the runs of octets between two zeros, in pieces."""
    made, at = b"", 0
    while at < len(table):
        end = at
        while end < len(table) and table[end] and end - at < LONGEST_PATCH:
            end += 1
        if end > at:
            made += at.to_bytes(2, "little") + bytes([end - at]) + table[at:end]
        at = max(end, at + 1)
    return made


def tables(cases: Cases) -> bytes:
    table = cases.conversion() if cases.chance(0.5) else cases.table()
    table = table[: SLOTS * SLOT]
    return bytes([len(table) // SLOT, cases.random.choice([0, 0, 0, 0, 1, 2])]) + patches(table)


def seed(make, cases: Cases, number: int) -> bytes:
    """One input; every eighth as it comes, the others short."""
    made = make(cases)
    while number % 8 and len(made) > SHORT:
        made = make(cases)
    return made


if __name__ == "__main__":
    kind, folder, count = sys.argv[1], Path(sys.argv[2]), int(sys.argv[3])
    make = {"messages": messages, "tables": tables}[kind]
    cases = Cases(int(os.environ.get("VIENGHULAC_SEED", "1")))
    for number in range(count):
        (folder / f"seed-{number}").write_bytes(seed(make, cases, number))
