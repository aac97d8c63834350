"""The command line for the tests: run as its users run it, on mailboxes that are made for it."""

import os
import subprocess
import sys

from letters import EXAMPLES

INBOX = EXAMPLES / "inbox.mbox"


def words_of(*words):
    """What to start for a command."""
    return [sys.executable, "-m", "vienghulac", *(os.fsencode(word) for word in words)]


def run(*words, **more):
    return subprocess.run(words_of(*words), capture_output=True, **more)


def answer(*words, **more):
    """What a command that succeeds prints; it has nothing to complain about."""
    done = run(*words, **more)
    assert (done.returncode, done.stderr) == (0, b"")
    return done.stdout


def failure(status, *words, **more):
    """The one line of a command that fails, which answers nothing."""
    done = run(*words, **more)
    assert (done.returncode, done.stdout) == (status, b"")
    if status == 1:
        assert done.stderr.startswith(b"vienghulac: ") and done.stderr.count(b"\n") == 1
    return done.stderr.decode()


def mailbox_of(path, letters):
    path.write_bytes(b"".join(b"From a@x Sun Sep 13 12:26:40 2020\n" + block + b"body\n\n" for block in letters))
    return path
