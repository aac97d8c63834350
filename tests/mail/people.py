"""People with GnuPG homes of their own: keys that it made, mail that it encrypts and opens."""

from __future__ import annotations

import re
import shutil
import subprocess
import tempfile
from types import TracebackType
from typing import Optional

# what GnuPG is told to make
ED25519 = "Key-Type: EDDSA\nKey-Curve: ed25519\nSubkey-Type: ECDH\nSubkey-Curve: cv25519"
RSA = "Key-Type: RSA\nKey-Length: {0}\nSubkey-Type: RSA\nSubkey-Length: {0}"
RSA_3072, RSA_4096 = RSA.format(3_072), RSA.format(4_096)
USES = "Key-Usage: sign\nSubkey-Usage: encrypt\nExpire-Date: 0\n%no-protection\n%commit\n"


class NoGnuPG(AssertionError):
    """A package is not there."""


class NotOpened(Exception):
    """A mail that is for someone else."""


class Person:
    """Someone with an address and a key, for the length of a `with`."""

    def __init__(self, address: bytes, kind: str) -> None:
        for command in ("gpg", "gpg-agent", "gpgconf"):
            if shutil.which(command) is None:
                raise NoGnuPG(f"{command} is not installed, the Debian package {command}, which tools/install does")
        self.address, self._kind = address, kind

    def __enter__(self) -> Person:
        self._home = tempfile.mkdtemp(prefix="gpg-", dir="/tmp")  # the path of the agent's socket has to be short
        try:
            asked = f"{self._kind}\nName-Email: {self.address.decode()}\n{USES}"
            self.gpg("--generate-key", given=asked.encode())
            self.key = self.gpg("--export-options", "export-minimal", "--export")
            listed = self.gpg("--with-colons", "--list-keys").decode()
            self.fingerprint = re.findall(r"^fpr:+(\w+):", listed, re.MULTILINE)[0]
        except BaseException:
            self.__exit__(None, None, None)
            raise
        return self

    def __exit__(
        self, kind: Optional[type[BaseException]], value: Optional[BaseException], trace: Optional[TracebackType]
    ) -> None:
        subprocess.run(["gpgconf", "--homedir", self._home, "--kill", "all"], check=True)
        shutil.rmtree(self._home)

    def gpg(self, *words: str, given: bytes | memoryview = b"") -> bytes:
        """What gpg answers; it uses no network, asks nobody, and knows no trust."""
        own = ["--homedir", self._home, "--batch", "--no-tty", "--no-auto-key-locate", "--trust-model", "always"]
        command = ["gpg", *own, "--pinentry-mode", "loopback", "--passphrase", "", *words]
        done = subprocess.run(command, input=given, capture_output=True)
        if b"decryption failed" in done.stderr:
            raise NotOpened(done.stderr.decode())
        assert done.returncode == 0, done.stderr.decode()
        return done.stdout

    def take(self, key: bytes | memoryview) -> str:
        """Put a key into the keyring; its fingerprint."""
        done = self.gpg("--status-fd", "1", "--import", given=key).decode()
        (fingerprint,) = re.findall(r"^\[GNUPG:\] IMPORT_OK \d+ (\w+)$", done, re.MULTILINE)
        return fingerprint

    def encrypt(self, text: bytes, fingerprints: list[str]) -> bytes:
        recipients = [word for fingerprint in fingerprints for word in ("--recipient", fingerprint)]
        return self.gpg("--armor", "--encrypt", *recipients, given=text)

    def open(self, text: bytes) -> bytes:
        return self.gpg("--decrypt", given=text)

    def packets(self) -> list[str]:
        """What the exported key is made of, in the words of gpg."""
        return re.findall(r"^:([\w ]+) packet:", self.gpg("--list-packets", given=self.key).decode(), re.MULTILINE)
