#!/usr/bin/env python3
"""vectors.py FILE COUNT: writes a file of cases for vectors.c, COUNT of each call, with what the independent program answers;
of `process` three times as many, each mail with three settings.

A case is the number of its call, its blocks (each a length and its octets), its numbers and its answer, in the order in which
vectors.c reads them; every number has eight octets, the lowest first. VIENGHULAC_SEED=n makes other cases.
"""
import os
import sys
from pathlib import Path

sys.path.insert(0, str(Path(__file__).resolve().parents[1] / "independent"))

from cases import Cases  # noqa: E402
from scope import conversion, displaying, linting, processing, recommending, table as tables, writing  # noqa: E402

CHECK, PROCESS, RECOMMEND, TARGET_KEY, WRITE_AUTOCRYPT, WRITE_GOSSIP, ENTRY, CONVERT, DISPLAY, QUICK = range(1, 11)
LINT = 11


def number(value: int) -> bytes:
    return value.to_bytes(8, "little")


def block(octets: bytes) -> bytes:
    return number(len(octets)) + octets


def case(call: int, *parts) -> bytes:
    return number(call) + b"".join(block(part) if isinstance(part, bytes) else number(part) for part in parts)


def field(call: int, cases: Cases, address: bytes, key: bytes, room: int, mutual: bool, answer: tuple[int, bytes]) -> bytes:
    out = cases.random.randbytes(room)
    refusal, written = answer
    return case(call, address, key, out, mutual, refusal, len(written), written + out[len(written) :])


def shown(cases: Cases, address: bytes, room: int, answer: tuple[int, bytes]) -> bytes:
    out = cases.random.randbytes(room)
    refusal, written = answer
    return case(DISPLAY, address, out, refusal, len(written), written + out[len(written) :])


def entry(cases: Cases, table: bytes, slot: int, many: int, answer: tuple[int, int, list[int] | None]) -> bytes:
    lent = cases.random.randbytes(8 * many)
    refusal, index, numbers = answer
    written = b"".join(map(number, numbers or []))
    return case(ENTRY, table, lent, slot, refusal, index, written + lent[len(written) :])


def quick(cases: Cases) -> bytes:
    """One case of `recommend_quick`."""
    call = cases.quick()
    return case(QUICK, *call, *recommending.quick(*call))


def lint(cases: Cases) -> bytes:
    """One case of `lint`; its numbers have four octets each."""
    outer, payload, many = cases.linting()
    lent = cases.random.randbytes(4 * many)
    refusal, faults = linting.lint(outer, payload, many)
    written = b"".join(part.to_bytes(4, "little") for fault in faults for part in fault)
    return case(LINT, outer, payload, lent, refusal, len(faults), written + lent[len(written) :])


def made(cases: Cases) -> bytes:
    """One case of each other call; of `process` one mail with three settings."""
    table = cases.table()
    one = case(CHECK, table, *tables.check(table))
    table = cases.conversion()
    one += case(CONVERT, table, *conversion.convert(table))
    table, receipt, outer, payload, gossip = cases.processing()
    for setting in (gossip, processing.UNSET, processing.TAKE):  # G1: the same mail, gossip not asked for and asked for
        after = processing.process(table, receipt, outer, payload, setting)
        one += case(PROCESS, table, outer, payload, receipt, setting, *after)
    table, recipients, mutual, reply, place = cases.target()
    one += case(RECOMMEND, table, recipients, mutual, reply, *recommending.recommend(table, recipients, mutual, reply))
    part = recommending.target_key(table, recipients, mutual, reply, place)
    one += case(TARGET_KEY, table, recipients, mutual, reply, place, *part)
    table, slot, many = cases.one_slot()
    one += entry(cases, table, slot, many, tables.entry_numbers(table, slot, many))
    address, room = cases.displaying()
    one += shown(cases, address, room, displaying.display(address, room))
    address, key, mutual, room = cases.writing()
    one += field(WRITE_AUTOCRYPT, cases, address, key, room, mutual, writing.write_autocrypt(address, key, mutual, room))
    address, key, room = cases.writing_gossip()
    return one + field(WRITE_GOSSIP, cases, address, key, room, False, writing.write_gossip(address, key, room))


if __name__ == "__main__":
    cases = Cases(int(os.environ.get("VIENGHULAC_SEED", "1")))
    with open(sys.argv[1], "wb") as file:
        for make in (made, quick, lint):  # one after the other: what the calls of before draw stays as it was
            for _ in range(int(sys.argv[2])):
                file.write(make(cases))
