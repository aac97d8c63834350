"""The command line: `vienghulac COMMAND ..`, or `python -m vienghulac COMMAND ..`.

A refusal, or a file that cannot be read or written, is one line on standard error and exit status 1; bad usage is 2.
"""

from __future__ import annotations

import argparse
import base64
import collections
import contextlib
import io
import json
import os
import shlex
import sys
import time
from datetime import datetime, timezone
from typing import Any, Iterator, Optional, Sequence

from ._fields import FieldValue, autocrypt_field, display, gossip_field
from ._files import read_file, replace_file
from ._linting import Block, Fault, field_names, lint
from ._mailbox import BLOCK_LIMIT, Mailbox, NoMailbox, header_block, open_mailbox
from ._refusals import BAD_PAYLOAD, BAD_SLOT, REFUSALS, Refused
from ._shared import Locked, convert_file, open_table
from ._table import (
    SLOT, Entry, Gossip, Table, convert, entries, process, read_octets, recommend, recommend_quick, target_key,
)  # fmt: skip
from ._usage import Command, parser

_STANDARD_INPUT = "-"
_KEY_LIMIT = 2_048
_ARMOR = b"-----BEGIN PGP"
_ADDRESS_ROOM = slice(40, 296)  # of a slot (T3)


class _Failure(Exception):
    """A failure that is one line on standard error."""


class _NoTable(_Failure):
    """A table file whose octets were refused. Where the command `convert` would take it, the line says so."""

    def __init__(self, name: str, refused: Refused, octets: bytes) -> None:
        way_out = ""
        if refused.number == BAD_SLOT and os.path.isfile(name) and _is_convertible(octets):
            named = "-- " * name.startswith("-") + shlex.quote(name)
            way_out = f"; it is of an older version, and `vienghulac convert {named}` takes it"
        super().__init__(f"{name}: {refused}{way_out}")
        self.refused = refused


def _is_convertible(octets: bytes) -> bool:
    try:
        convert(octets)
    except Refused:
        return False
    return True


def main(arguments: Optional[Sequence[str]] = None) -> int:
    """Run one command and answer its exit status."""
    if isinstance(sys.stdout, io.TextIOWrapper):
        sys.stdout.reconfigure(errors="backslashreplace")  # a letter that the terminal lacks is no failure
    options = parser(_COMMANDS).parse_args(arguments)
    run: Command = options.run
    try:
        status = run(options)
        sys.stdout.flush()
        return status
    except BrokenPipeError:
        # whoever read the output has left; the interpreter must not try to flush it once more
        os.dup2(os.open(os.devnull, os.O_WRONLY), sys.stdout.fileno())
        return 1
    except (_Failure, NoMailbox, Refused, OSError) as failure:
        hint = failure.hint if isinstance(failure, Refused) else None
        print(f"vienghulac: {failure}" + (f" ({hint})" if hint else ""), file=sys.stderr)
        return 1
    except KeyboardInterrupt:
        print("vienghulac: interrupted", file=sys.stderr)
        return 130


# import


def _import(options: argparse.Namespace) -> int:
    answers: collections.Counter[int] = collections.Counter()
    with _opened(options) as table:
        mailboxes = [(name, open_mailbox(name)) for name in options.mailbox]
        for name, mailbox in mailboxes:
            answers += _taken_in(table, name, mailbox, options.receipt)
    if options.json:
        _print_json(
            {
                "messages": sum(answers.values()),
                "answers": {str(number): answers[number] for number in sorted(answers)},
                "slots": table.slots,
                "used": len(entries(table)),
            }
        )
        return 0
    print(f"{sum(answers.values())} messages")
    for number in sorted(answers):
        print(f"{answers[number]:>8}  {number:>2}  {REFUSALS.get(number, 'done')}")
    print(f"{options.table}: {_use(table)}")
    return 0


@contextlib.contextmanager
def _opened(options: argparse.Namespace) -> Iterator[Table]:
    """The table to change; the file is replaced where nothing fails."""
    try:
        with open_table(options.table, options.slots, not options.no_wait, _say_waiting) as table:
            yield table
    except Locked as locked:
        raise _is_locked(options.table, locked) from None
    except Refused as refused:
        # 1 may be about a table that was to be made; with 2 the file was there, and it is no pipe
        octets = b""
        if refused.number == BAD_SLOT:
            with contextlib.suppress(OSError):
                octets = read_octets(options.table)
        raise _NoTable(options.table, refused, octets) from None


def _is_locked(name: str, locked: Locked) -> _Failure:
    return _Failure(f"{name}: another program holds its lock, {locked.filename}")


def _say_waiting(lock: str) -> None:
    print(f"vienghulac: waiting for another program, which holds {lock}", file=sys.stderr)


def _taken_in(table: Table, name: str, mailbox: Mailbox, receipt: Optional[int]) -> collections.Counter[int]:
    """The answers to the messages of a mailbox, counted by number."""
    answers: collections.Counter[int] = collections.Counter()
    progress = _Progress(name, mailbox.size)
    for message in mailbox.messages():
        answers[_answer(table, message.receipt if receipt is None else receipt, message.block)] += 1
        progress.show(message.read)
    progress.end()
    return answers


def _answer(table: Table, receipt: int, block: bytes) -> int:
    """What `process` answers to one message. Gossip is asked for, though no payload is read here yet: whoever adds payloads
    need not think of it."""
    try:
        process(table, receipt, block, gossip=Gossip.TAKE)
    except Refused as refused:
        return refused.number
    return 0


class _Progress:
    """A bar on standard error, where that is a terminal; nothing elsewhere."""

    _WIDTH = 40

    def __init__(self, name: str, total: int) -> None:
        self._name = name
        self._total = max(total, 1)
        self._shown = sys.stderr.isatty()
        self._next = 0.0

    def show(self, done: int) -> None:
        if self._shown and time.monotonic() >= self._next:
            self._next = time.monotonic() + 0.1
            self._draw(done)

    def end(self) -> None:
        if self._shown:
            self._draw(self._total)
            print(file=sys.stderr)

    def _draw(self, done: int) -> None:
        full = self._WIDTH * done // self._total
        bar = "#" * full + "." * (self._WIDTH - full)
        print(f"\r[{bar}] {100 * done // self._total:>3}% {self._name}", end="", file=sys.stderr, flush=True)


# list, check, convert


def _list(options: argparse.Namespace) -> int:
    found = entries(_load(options.table))
    if options.json:
        _print_json([_described(entry) for entry in found])
        return 0
    rows = [("address", "last seen", "key of", "octets", "preference", "gossip of", "octets")]
    rows += [_row(entry, options.display) for entry in found]
    widths = [max(len(row[column]) for row in rows) for column in range(len(rows[0]))]
    for row in rows:
        print("  ".join(word.ljust(width) for word, width in zip(row, widths)).rstrip())
    return 0


def _row(entry: Entry, shown: bool) -> tuple[str, str, str, str, str, str, str]:
    return (
        _printable(display(entry.address) if shown else entry.address),
        _moment(entry.last_seen),
        _moment(entry.autocrypt_timestamp),
        str(_length(entry.direct_key)),
        _preference(entry),
        _moment(entry.gossip_timestamp),
        str(_length(entry.gossip_key)),
    )


def _described(entry: Entry) -> dict[str, Any]:
    return {
        "slot": entry.slot,
        "address": _text(entry.address),
        "display": _text(display(entry.address)),
        "last_seen": entry.last_seen,
        "autocrypt_timestamp": entry.autocrypt_timestamp,
        "direct_key_length": _length(entry.direct_key),
        "preference": _preference(entry),
        "gossip_timestamp": entry.gossip_timestamp,
        "gossip_key_length": _length(entry.gossip_key),
    }


def _preference(entry: Entry) -> str:
    return "mutual" if entry.mutual else "none"


def _length(key: Optional[memoryview]) -> int:
    return 0 if key is None else len(key)


def _moment(seconds: Optional[int]) -> str:
    return "-" if seconds is None else datetime.fromtimestamp(seconds, timezone.utc).strftime("%Y-%m-%d %H:%M:%S")


def _printable(address: bytes) -> str:
    """An address for a terminal: a stranger chose it, so nothing in it may steer the terminal."""
    text = address.decode("utf-8", "backslashreplace")
    return "".join(letter if letter.isprintable() else ascii(letter)[1:-1] for letter in text)


def _text(address: bytes) -> str:
    """An address for JSON, which escapes what is not ASCII."""
    return address.decode("utf-8", "surrogateescape")


def _check(options: argparse.Namespace) -> int:
    judged = [_judged(name, options.json) for name in options.file]
    if options.json:
        _print_json(judged)
    return 0 if all(one["number"] == 0 for one in judged) else 1


def _judged(name: str, quiet: bool) -> dict[str, Any]:
    """What a file is, printed unless in JSON; the number is None where it cannot be read."""
    try:
        table = _load(name)
    except _NoTable as failure:
        print(f"vienghulac: {failure}", file=sys.stderr)
        return {"file": name, "number": failure.refused.number, "slot": failure.refused.slot}
    except OSError as failure:
        print(f"vienghulac: {failure}", file=sys.stderr)
        return {"file": name, "number": None, "slot": None}
    if not quiet:
        print(f"{name}: {_use(table)}")
    return {"file": name, "number": 0, "slot": None}


def _use(table: Table) -> str:
    return f"{len(entries(table))} of {table.slots} slots used"


def _convert(options: argparse.Namespace) -> int:
    done = [_converted(name, not options.no_wait, options.json) for name in options.file]
    if options.json:
        _print_json(done)
    return 0 if all(one["number"] == 0 for one in done) else 1


def _converted(name: str, wait: bool, quiet: bool) -> dict[str, Any]:
    """What became of a file, printed unless in JSON; the number is None where it cannot be read, locked or replaced."""
    left: dict[str, Any] = dict.fromkeys(("file", "number", "slot", "slots", "used", "renamed", "merged"))
    left["file"] = name
    try:
        stored, table = convert_file(name, wait, _say_waiting)
    except Refused as refused:
        print(f"vienghulac: {name}: {refused}", file=sys.stderr)
        return {**left, "number": refused.number, "slot": refused.slot}
    except Locked as locked:
        print(f"vienghulac: {_is_locked(name, locked)}", file=sys.stderr)
        return left
    except OSError as failure:
        print(f"vienghulac: {failure}", file=sys.stderr)
        return left
    renamed, merged = _counted(stored, bytes(table))
    if not quiet:
        print(f"{name}: {_use(table)}, {renamed} renamed, {merged} merged")
    counts = {"slots": table.slots, "used": len(entries(table)), "renamed": renamed, "merged": merged}
    return {**left, "number": 0, **counts}


def _counted(stored: bytes, converted: bytes) -> tuple[int, int]:
    """How many slots hold an entry whose address is now spelled in another way, and how many became free.

    The lowest slot of a group keeps its entry, whatever its spelling was (T17). So where something changed, one of the
    two numbers at least is above 0.
    """
    free, renamed, merged = bytes(SLOT), 0, 0
    for start in range(0, len(stored), SLOT):
        before, after = stored[start : start + SLOT], converted[start : start + SLOT]
        if after == free:
            merged += before != free
        else:
            renamed += after[_ADDRESS_ROOM] != before[_ADDRESS_ROOM]
    return renamed, merged


# recommend, key


def _recommend(options: argparse.Namespace) -> int:
    asked = _load(options.table), os.fsencode(options.recipients), options.mutual, options.reply
    advice, looked_up = recommend_quick(*asked) if options.quick else (recommend(*asked), None)
    counted = {} if looked_up is None else {"looked_up": looked_up}
    if options.json:
        _print_json({"advice": advice.name.lower(), "advice_number": advice.value, **counted})
    else:
        print(advice.name.lower(), *counted.values())
    return 0


def _key(options: argparse.Namespace) -> int:
    table, recipients = _load(options.table), os.fsencode(options.recipients)
    recommend(table, recipients)  # a list that is refused has no keys, and its number says why
    key = target_key(table, recipients, place=options.place)
    if key is None:
        raise _Failure(f"no key for the recipient at place {options.place}")
    if options.output is not None:
        replace_file(options.output, bytes(key))
    if options.json:
        _print_json({"length": len(key), "key": base64.b64encode(key).decode("ascii")})
    elif options.output is None:
        sys.stdout.buffer.write(key)
    return 0


# field, display


def _field(options: argparse.Namespace) -> int:
    address, key = os.fsencode(options.address), _read_key(options.key)
    field = gossip_field(address, key) if options.gossip else autocrypt_field(address, key, options.mutual)
    if options.json:
        value = FieldValue(field)
        _print_json({"name": value.name, "value": str(value)})
    else:
        sys.stdout.buffer.write(field)
    return 0


def _read_key(name: str) -> bytes:
    """The octets of a key. What is armored is no key yet, though it may be short enough to be written as one."""
    key = _read(name, _KEY_LIMIT)
    if key.startswith(_ARMOR):
        raise _Failure(f"{name}: the key is armored; it has to be binary (gpg --dearmor)")
    return key


def _display(options: argparse.Namespace) -> int:
    shown = display(os.fsencode(options.address))
    if options.json:
        _print_json({"display": _text(shown)})
    else:
        print(_printable(shown))
    return 0


# lint


def _lint(options: argparse.Namespace) -> int:
    if options.file == options.payload == _STANDARD_INPUT:
        options.misused("FILE and --payload cannot both be standard input")
    outer = _read_block(options.file)
    payload = b"" if options.payload is None else _read_block(options.payload)
    try:
        faults = lint(outer, payload)
    except Refused as refused:
        at_fault = options.payload if refused.number == BAD_PAYLOAD else options.file
        raise _Failure(f"{at_fault}: {refused}") from None
    names = {Block.OUTER: field_names(outer), Block.PAYLOAD: field_names(payload)}
    found = [(fault, names[fault.block][fault.place - 1] if fault.place else None) for fault in faults]
    if options.json:
        _print_json([_fault_described(fault, name) for fault, name in found])
    else:
        print("\n".join(_fault_line(fault, name) for fault, name in found) or "no faults")
    return 1 if faults else 0


def _read_block(name: str) -> bytes:
    """The header block at the front of a mail or a part, with its empty line, as `import` cuts it. Where it is longer
    than a block may be, there is enough of it to be refused."""
    return header_block(io.BytesIO(_read(name, BLOCK_LIMIT)))


def _fault_line(fault: Fault, name: Optional[str]) -> str:
    where = "" if name is None else f", field {fault.place} ({name})"
    return f"{fault.block.words}{where}: {fault.kind.words}"


def _fault_described(fault: Fault, name: Optional[str]) -> dict[str, Any]:
    return {
        "block": fault.block.words,
        "place": fault.place,
        "field": name,
        "kind": fault.kind.name.lower(),
        "kind_number": fault.kind.value,
        "words": fault.kind.words,
    }


# what the commands share


def _load(name: str) -> Table:
    """The table of a file. The file is read once: what is a pipe would have nothing more to say about a conversion."""
    octets = read_octets(name)
    try:
        return Table(octets)
    except Refused as refused:
        raise _NoTable(name, refused, octets) from None


def _read(name: str, limit: int) -> bytes:
    """The octets of a file or of standard input, or the first `limit + 1` where there are more than the limit."""
    return sys.stdin.buffer.read(limit + 1) if name == _STANDARD_INPUT else read_file(name, limit)


def _print_json(value: object) -> None:
    print(json.dumps(value))


_COMMANDS = {
    "import": _import,
    "list": _list,
    "recommend": _recommend,
    "field": _field,
    "key": _key,
    "display": _display,
    "lint": _lint,
    "check": _check,
    "convert": _convert,
}
