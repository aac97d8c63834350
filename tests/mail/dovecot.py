"""A Dovecot of the tests' own, on loopback: its settings, mail and log stand in a folder that goes with it.

The settings are for Dovecot 2.3 (Debian 12). It runs for root, where the mail belongs to nobody, and for any other user who
has a name, where all of it belongs to that one.
"""

from __future__ import annotations

import contextlib
import grp
import imaplib
import os
import pwd
import shutil
import signal
import socket
import subprocess
import tempfile
import time
from pathlib import Path
from types import TracebackType
from typing import Optional

PROGRAM, SERVICE = Path("/usr/sbin/dovecot"), Path("/usr/lib/dovecot/imap")

USER, PASSWORD = "reader", 'a "pass" wörd'
ZONE = "TST-5:30"  # the server's own, east of UTC, in which it tells INTERNALDATE
SECONDS = 20

SETTINGS = """\
base_dir = {folder}/run
state_dir = {folder}/state
log_path = {folder}/log
{users}
protocols = imap
listen = 127.0.0.1
auth_failure_delay = 0
disable_plaintext_auth = no
mail_location = mdbox:{folder}/mail
mail_fsync = never
mail_max_userip_connections = 50
first_valid_uid = 1
ssl = yes
ssl_cert = <{folder}/certificate
ssl_key = <{folder}/key
passdb {{
  driver = passwd-file
  args = {folder}/users
}}
userdb {{
  driver = static
  args = uid={owner} gid={group} home={folder}/mail
}}
service imap-login {{
  chroot =
  inet_listener imap {{
    port = {port}
  }}
  inet_listener imaps {{
    port = {tls_port}
  }}
}}
service anvil {{
  chroot =
  unix_listener anvil-auth-penalty {{
    mode = 0
  }}
}}
"""


class NoServer(AssertionError):
    """A package is not there, or the server does not start."""


def free_ports() -> tuple[int, int]:
    """Two ports of loopback that nobody listens on."""
    with socket.create_server(("127.0.0.1", 0)) as one, socket.create_server(("127.0.0.1", 0)) as other:
        return one.getsockname()[1], other.getsockname()[1]


class Dovecot:
    """The server, for the length of a `with`."""

    def __init__(self) -> None:
        for file in (PROGRAM, SERVICE):
            if not file.exists():
                raise NoServer(f"dovecot-imapd is not installed, which tools/install does (no {file})")
        self.port, self.tls_port = free_ports()
        # the paths of its sockets have to be short
        self.folder = Path(tempfile.mkdtemp(prefix="mail-", dir="/tmp"))
        self.certificate = self.folder / "certificate"

    def __enter__(self) -> Dovecot:
        try:
            self._write()
            command = [PROGRAM, "-F", "-c", self.folder / "settings"]
            with open(self.folder / "said", "wb") as said:
                self._process = subprocess.Popen(command, stdout=said, stderr=said, env={**os.environ, "TZ": ZONE})
            self._wait()
        except BaseException:
            self.__exit__(None, None, None)
            raise
        return self

    def __exit__(
        self, kind: Optional[type[BaseException]], value: Optional[BaseException], trace: Optional[TracebackType]
    ) -> None:
        self.stop()
        shutil.rmtree(self.folder)

    def _write(self) -> None:
        """The folder: settings, a certificate for 127.0.0.1, and room for mail."""
        me, group, users = pwd.getpwuid(os.getuid()), grp.getgrgid(os.getgid()), ""
        if me.pw_uid == 0:
            me = pwd.getpwnam("nobody")
            group = grp.getgrgid(me.pw_gid)
        else:
            users = f"default_internal_user = {me.pw_name}\ndefault_login_user = {me.pw_name}\n"
            users += f"default_internal_group = {group.gr_name}"
        self.folder.chmod(0o755)
        (self.folder / "mail").mkdir()
        os.chown(self.folder / "mail", me.pw_uid, group.gr_gid)
        subject = ["-subj", "/CN=127.0.0.1", "-addext", "subjectAltName=IP:127.0.0.1", "-days", "2"]
        files = ["-keyout", self.folder / "key", "-out", self.certificate]
        kind = ["-x509", "-nodes", "-newkey", "ec", "-pkeyopt", "ec_paramgen_curve:prime256v1"]
        subprocess.run(["openssl", "req", *kind, *subject, *files], check=True, capture_output=True)
        settings = SETTINGS.format(
            folder=self.folder, users=users, port=self.port, tls_port=self.tls_port, owner=me.pw_uid, group=group.gr_gid
        )
        (self.folder / "settings").write_text(settings)
        (self.folder / "users").write_text(f"{USER}:{{PLAIN}}{PASSWORD}\n", encoding="utf-8")
        (self.folder / "users").chmod(0o644)

    def _wait(self) -> None:
        """Until it lets a user in; what it said, where it ends or takes too long."""
        late = time.monotonic() + SECONDS
        while self._process.poll() is None and time.monotonic() < late:
            try:
                with self.connection():
                    return
            except (OSError, imaplib.IMAP4.error):
                time.sleep(0.05)
        said = [file.read_text() for file in (self.folder / "said", self.folder / "log") if file.exists()]
        raise NoServer("Dovecot does not start:\n" + "".join(said))

    def stop(self) -> None:
        """Ask it to end, and wait until it has."""
        process = getattr(self, "_process", None)
        if process is not None and process.poll() is None:
            process.terminate()
            process.wait(SECONDS)

    def kill(self) -> None:
        """End it in the middle of its work: a process that serves a connection would go on serving it after a stop."""
        for process in Path(f"/proc/{self._process.pid}/task/{self._process.pid}/children").read_text().split():
            with contextlib.suppress(FileNotFoundError, ProcessLookupError):  # it has ended by itself
                if Path(f"/proc/{process}/comm").read_text() == "imap\n":
                    os.kill(int(process), signal.SIGKILL)
        self.stop()

    def ended(self) -> bool:
        return self._process.poll() is not None

    def connection(self) -> imaplib.IMAP4:
        """A connection that is logged in; a `with` logs it out."""
        imap = imaplib.IMAP4("127.0.0.1", self.port, timeout=SECONDS)
        imap.authenticate("PLAIN", lambda _: f"\0{USER}\0{PASSWORD}".encode())
        return imap
