"""A table file that several programs write: one at a time, each under a lock from reading the table to replacing it.

The lock is flock(2) on a file of its own beside the table, `.NAME.lock`. The table file cannot carry it: saving puts another
file in its place, and the lock would stay with the old one. A flock belongs to one opening of a file, so two threads exclude
each other just as two processes do, and the system frees it when a process ends, however it ends. The locks of `lockf`
belong to a process: its threads would all pass, and closing any one opening of the file would free the lock of another.

No one removes the lock file. A program that waits has it open; were it removed, that program would get the lock of a file
that the next one does not find. Where someone else removes or replaces it, a lock on the old file counts for nothing.
"""

from __future__ import annotations

import contextlib
import errno
import fcntl
import io
import os
import stat
import threading
import time
import weakref
from typing import Callable, Iterator, Optional

from ._arguments import number, truth
from ._files import FilePath, sync_file
from ._table import SLOTS, Table, convert, read_octets

_PATIENCE = 1.0  # seconds of waiting before a notice
_PAUSE = 0.02  # seconds between two attempts, as long as a notice may be due
_ATTEMPTS = 16  # lock files that may be removed just as they are locked, one after the other


class Locked(BlockingIOError):
    """The lock of a table file is held, and `open_table` was not to wait for it. `filename` is the lock file."""


@contextlib.contextmanager
def open_table(
    path: FilePath, slots: int = SLOTS, wait: bool = True, waiting: Optional[Callable[[str], object]] = None
) -> Iterator[Table]:
    """Change the table that a file holds, while no one else does.

        with open_table("correspondents.table") as table:
            process(table, receipt, header_block)

    The table is the file's, or a new one with `slots` slots where there is no file. Leaving the block replaces the file
    whole, as `Table.save` does; leaving it by an exception leaves the file as it was. A table that the block did not change
    is not written, unless it is new. What is changed after the block does not reach the file. Raises `Refused`: 1 or 2 where
    the file holds no table, 1 where a new one would not have 1 to 256 slots. A file of a version before 0.4 may have to
    be converted first, which `vienghulac convert` does. Raises OSError where the file cannot be read or written, or its
    lock file cannot be made.

    From before the table is read until the file is replaced, the block holds a lock: flock(2), exclusive, on the file
    `.NAME.lock` beside the table file NAME, where that stands when symbolic links are followed. It keeps out other threads,
    other processes, and programs in other languages that take it too. It is freed as the block is left, and when the
    process ends or is killed. The lock file stays. Where someone removes it during the block, leaving the block raises
    OSError and writes nothing, since another may have got in. Readers need no lock: `Table.load` gives the old table or the
    new one. `Table.save` takes none, so all who share a file change it in such blocks.

    A lock that is held is waited for. After a second `waiting` is called, once, with the lock file's name; what it raises
    ends the wait. With `wait=False` a lock that is held raises `Locked` at once. A thread that has the file open already
    would wait for itself, and gets RuntimeError. Two who each have one table open and wait for the other's wait for ever:
    open several tables in one order everywhere.

    A process that is forked inside the block does not hold the lock, and gets RuntimeError where it leaves the block.
    """
    slots, patience = number(slots, "slots"), _Patience(wait, waiting)
    target = os.path.realpath(os.fsdecode(path))
    _need_file(target)
    with _locked(target, patience) as lock:
        table, stored = _loaded(target, slots)
        yield table
        lock.need()
        if bytes(table) == stored:
            sync_file(target)  # whoever wrote this may have been killed before it was on the disk
        else:
            table.save(target)


def convert_file(
    path: FilePath, wait: bool = True, waiting: Optional[Callable[[str], object]] = None
) -> tuple[bytes, Table]:
    """Convert the table that a file holds, while no one else changes it: the octets that were there, and the table.

    The file is replaced as by `open_table`, with the same lock, and only where the conversion changes something.
    Whether it does is seen without the lock: most files are up to date or no tables, and no lock file is then made
    beside them. Raises `Refused` (1, 2) and OSError, and leaves the file as it was.
    """
    patience = _Patience(wait, waiting)
    target = os.path.realpath(os.fsdecode(path))
    _need_file(target)
    stored, table = _converted(target)
    if bytes(table) == stored:
        return stored, table
    with _locked(target, patience) as lock:
        stored, table = _converted(target)  # another may have replaced the file before the lock was free
        lock.need()
        if bytes(table) == stored:
            sync_file(target)
        else:
            table.save(target)
    return stored, table


def _converted(target: str) -> tuple[bytes, Table]:
    """The octets that a file holds, and the table that the conversion makes of them."""
    stored = read_octets(target)
    return stored, convert(stored)


def _need_file(target: str) -> None:
    """Raise where something else than a file stands there: before a lock file is made beside it, or a pipe is waited for."""
    with contextlib.suppress(FileNotFoundError):
        mode = os.stat(target).st_mode
        if stat.S_ISDIR(mode):
            raise IsADirectoryError(errno.EISDIR, os.strerror(errno.EISDIR), target)
        if not stat.S_ISREG(mode):
            raise OSError(errno.EINVAL, "Not a regular file", target)


def _loaded(target: str, slots: int) -> tuple[Table, Optional[bytes]]:
    """The table of a file, with the octets that it holds; or a new one, with none."""
    try:
        table = Table.load(target)
    except FileNotFoundError:
        return Table.new(slots), None
    return table, bytes(table)


@contextlib.contextmanager
def _locked(target: str, patience: _Patience) -> Iterator[_LockFile]:
    """Hold the lock of a table file. One whose lock file was removed before it was locked is asked for again."""
    folder, name = os.path.split(target)
    path = os.path.join(folder, f".{name}.lock")
    for _ in range(_ATTEMPTS):
        with _LockFile(path, target) as lock:
            patience.wait_for(lock)
            if lock.stands():
                yield lock
                return
    raise _removed(path)


class _Patience:
    """How a lock is waited for: not at all, or as long as it takes, with one notice."""

    def __init__(self, wait: bool, notice: Optional[Callable[[str], object]]) -> None:
        self._wait = truth(wait, "wait")
        if notice is not None and not callable(notice):
            raise TypeError(f"waiting must be callable or None, not {type(notice).__name__}")
        self._notice = notice

    def wait_for(self, lock: _LockFile) -> None:
        """Take a lock, or raise."""
        if lock.take(fcntl.LOCK_NB):
            return
        if not self._wait:
            raise Locked(errno.EWOULDBLOCK, "The lock of the table file is held", lock.path)
        if lock.is_held_here():
            raise RuntimeError(f"this thread has the table open already, and would wait for itself: {lock.path}")
        if self._notice is not None:
            if self._taken_soon(lock):
                return
            notice, self._notice = self._notice, None
            notice(lock.path)
        lock.take()

    def _taken_soon(self, lock: _LockFile) -> bool:
        """Try until a notice is due. The system wakes whoever waits in it, but knows no end to that but a signal."""
        end = time.monotonic() + _PATIENCE
        while time.monotonic() < end:
            time.sleep(_PAUSE)
            if lock.take(fcntl.LOCK_NB):
                return True
        return False


class _LockFile(io.FileIO):
    """A lock file that is open, and made where there was none. Closing it frees the lock, and so does dropping it."""

    _holder: Optional[threading.Thread] = None

    def __init__(self, path: str, target: str) -> None:
        self.path = path
        self._target = target
        super().__init__(path, "r+", opener=self._descriptor)
        self._status = os.fstat(self.fileno())
        _open.add(weakref.ref(self, _open.discard))

    def _descriptor(self, path: str, _: int) -> int:
        """A descriptor of the lock file. Who may write the table may lock a new one, and its owner always may."""
        flags = os.O_RDWR | os.O_CREAT | os.O_NOFOLLOW | os.O_CLOEXEC
        try:
            try:
                descriptor = os.open(path, flags | os.O_EXCL, 0o600)
            except FileExistsError:
                return os.open(path, flags, 0o600)
        except OSError as error:
            raise OSError(error.errno, f"The lock file cannot be opened: {error.strerror}", path) from None
        with contextlib.suppress(OSError):
            os.fchmod(descriptor, os.stat(self._target).st_mode & 0o666 | 0o600)
        return descriptor

    def take(self, how: int = 0) -> bool:
        """Take the lock, and say whether that was done: always, but with LOCK_NB only where no one holds it."""
        try:
            fcntl.flock(self, fcntl.LOCK_EX | how)
        except BlockingIOError:
            return False
        except OSError as error:
            raise OSError(error.errno, f"The lock file cannot be locked: {error.strerror}", self.path) from None
        self._holder = threading.current_thread()
        return True

    def is_held_here(self) -> bool:
        """Does this thread hold the lock, by another opening of the file?"""
        here = threading.current_thread()
        return any(other._holder is here and os.path.samestat(other._status, self._status) for other in _all_open())

    def stands(self) -> bool:
        """Is this still the file that its path leads to?"""
        try:
            return os.path.samestat(os.stat(self.path, follow_symlinks=False), self._status)
        except FileNotFoundError:
            return False

    def need(self) -> None:
        """Raise where this process does not hold the lock that others ask for."""
        if self.closed:
            raise RuntimeError("the table was opened before a fork: only the process that opened it writes the file")
        if not self.stands():
            raise _removed(self.path)

    def close(self) -> None:
        """Free the lock, also where a process that was just forked has a copy of the descriptor for a moment."""
        try:
            if self._holder is not None and not self.closed:
                fcntl.flock(self, fcntl.LOCK_UN)
        finally:
            self._holder = None
            super().close()

    def leave(self) -> None:
        """Close a copy of the descriptor in a forked process, and free nothing: the lock is its parent's."""
        self._holder = None
        self.close()


_open: set[weakref.ref[_LockFile]] = set()


def _all_open() -> list[_LockFile]:
    return [lock for lock in (reference() for reference in _open.copy()) if lock is not None]


def _leave_to_parent() -> None:
    for lock in _all_open():
        lock.leave()


os.register_at_fork(after_in_child=_leave_to_parent)


def _removed(path: str) -> OSError:
    return OSError(errno.ESTALE, "The lock file was removed or replaced, so the table was not written", path)
