"""Whole files: read with a limit, and replaced so that a reader meets the old file or the new one, never half of one."""

from __future__ import annotations

import contextlib
import errno
import os
import stat
import tempfile
from typing import Union

FilePath = Union[str, "os.PathLike[str]"]


def read_file(path: FilePath, limit: int) -> bytes:
    """The octets of a file, or its first `limit + 1` where it is longer than the limit.

    Raises OSError where the file was written meanwhile: half of it may then be missing, and what is there may be sound.
    """
    with open(path, "rb") as file:
        before = os.fstat(file.fileno())
        octets = file.read(limit + 1)
        after = os.fstat(file.fileno())
    missing = len(octets) < min(before.st_size, limit + 1)
    written = (before.st_size, before.st_mtime_ns) != (after.st_size, after.st_mtime_ns)
    if stat.S_ISREG(before.st_mode) and (missing or written):
        raise OSError(errno.EBUSY, "The file was written while it was read", os.fspath(path))
    return octets


def replace_file(path: FilePath, octets: bytes) -> None:
    """Put a new file with these octets in the place of the old one.

    The octets go to a new file in the same folder, and are on the disk before the new file takes the old one's name;
    the folder is on the disk before this returns. A failure leaves the old file, and no new one. A new file can be read
    by its owner alone, one that replaces another keeps that one's mode.
    """
    target = os.path.realpath(path)
    folder, name = os.path.split(target)
    descriptor, fresh = tempfile.mkstemp(prefix=f".{name}.", suffix=".new", dir=folder)
    try:
        with os.fdopen(descriptor, "wb") as file:
            with contextlib.suppress(FileNotFoundError):
                os.fchmod(file.fileno(), stat.S_IMODE(os.stat(target).st_mode))
            file.write(octets)
            file.flush()
            os.fsync(file.fileno())
        os.replace(fresh, target)
    except BaseException:
        with contextlib.suppress(FileNotFoundError):
            os.unlink(fresh)
        raise
    _sync(folder)


def sync_file(path: FilePath) -> None:
    """Have a file on the disk under its name, as it stands."""
    target = os.path.realpath(path)
    _sync(target)
    _sync(os.path.dirname(target))


def _sync(path: str) -> None:
    descriptor = os.open(path, os.O_RDONLY)
    try:
        os.fsync(descriptor)
    finally:
        os.close(descriptor)
