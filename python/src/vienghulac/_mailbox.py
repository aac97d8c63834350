"""Mailboxes: the header block and the receipt time of each message of an mbox file or a Maildir.

A header block is taken from the file itself, octet by octet, up to and including the first empty line. It is never parsed
and written again by Python's mail package, which would change it.
"""

from __future__ import annotations

import os
from email.utils import mktime_tz, parsedate_tz
from pathlib import Path
from typing import BinaryIO, Iterator, NamedTuple, Optional, Union

BLOCK_LIMIT = 65_536
_EMPTY_LINES = (b"\n", b"\r\n")


class Message(NamedTuple):
    """A message of a mailbox, and how much of the mailbox has been read with it."""

    block: bytes
    receipt: int
    read: int


class NoMailbox(Exception):
    """A path that leads to neither an mbox file nor a Maildir."""


class Mbox:
    """An mbox file: each message follows a line that opens with `From ` and begins the file or follows an empty line.

    The receipt time is the date of that line, or the file's own time where the line has none.
    """

    def __init__(self, path: Path) -> None:
        self._path = path
        status = path.stat()
        self._modified = _seconds(status.st_mtime)
        self.size = status.st_size
        """The octets to be read."""

    def messages(self) -> Iterator[Message]:
        with open(self._path, "rb") as file:
            opening = _next_opening(file)
            while opening:
                receipt = _opening_time(opening)
                block = header_block(file)
                opening = _next_opening(file)
                yield Message(block, self._modified if receipt is None else receipt, file.tell())


class Maildir:
    """A Maildir: each file of its folders `cur` and `new` is a message, its receipt time the file's. Older ones come first."""

    def __init__(self, path: Path) -> None:
        found = [entry for name in ("cur", "new") for entry in os.scandir(path / name)]
        messages = [entry for entry in found if entry.is_file() and not entry.name.startswith(".")]
        self._files = sorted((_seconds(entry.stat().st_mtime), entry.name, entry.path) for entry in messages)
        self.size = len(self._files)
        """The messages to be read."""

    def messages(self) -> Iterator[Message]:
        for read, (receipt, _, path) in enumerate(self._files, 1):
            with open(path, "rb") as file:
                yield Message(header_block(file), receipt, read)


Mailbox = Union[Mbox, Maildir]


def open_mailbox(name: str) -> Mailbox:
    """The mailbox at a path. Raises `NoMailbox`, or OSError where it cannot be read."""
    path = Path(name)
    if path.is_dir():
        if (path / "cur").is_dir() and (path / "new").is_dir():
            return Maildir(path)
        raise NoMailbox(f"{name}: no Maildir (a folder with cur and new in it)")
    with open(path, "rb") as file:
        start = file.read(5)
    if start in (b"", b"From "):
        return Mbox(path)
    raise NoMailbox(f"{name}: no mbox file (its first line does not open with 'From ')")


def _lines(file: BinaryIO) -> Iterator[bytes]:
    """The rest of a file line by line; a line over the limit comes in pieces."""
    return iter(lambda: file.readline(BLOCK_LIMIT + 1), b"")


def header_block(file: BinaryIO) -> bytes:
    """The octets from here on, up to and including the first empty line.

    Of a block over the limit only its beginning is kept, which is over the limit just as well.
    """
    kept: list[bytes] = []
    length = 0
    before = b"\n"
    for line in _lines(file):
        if length <= BLOCK_LIMIT:
            kept.append(line)
            length += len(line)
        if line in _EMPTY_LINES and before.endswith(b"\n"):
            break
        before = line
    return b"".join(kept)


def _next_opening(file: BinaryIO) -> bytes:
    """The next line that opens a message, from the file's beginning or an empty line on; nothing at the file's end."""
    empty, before = True, b"\n"
    for line in _lines(file):
        if empty and line.startswith(b"From "):
            return _whole_line(file, line)
        empty = line in _EMPTY_LINES and before.endswith(b"\n")
        before = line
    return b""


def _whole_line(file: BinaryIO, line: bytes) -> bytes:
    """A line of which a first piece was read; the rest of it is passed over."""
    piece = line
    while piece and not piece.endswith(b"\n"):
        piece = file.readline(BLOCK_LIMIT + 1)
    return line


def _opening_time(line: bytes) -> Optional[int]:
    """The date of a line `From SENDER DATE`, which is in UTC where it names no zone."""
    words = line.decode("latin-1").split(None, 2)
    date = parsedate_tz(words[2]) if len(words) == 3 else None
    if date is None:
        return None
    try:
        return _seconds(mktime_tz(date[:9] + (date[9] or 0,)))
    except (ValueError, OverflowError):
        return None


def _seconds(time: float) -> int:
    """Whole seconds since 1970; a time before counts as 0."""
    return max(0, int(time))
