"""Real mail: the messages that two Debian packages carry for their own tests. tools/install installs them; nothing of them is stored here.

mail.py: prints the packages' names, for tools/install.
"""
import functools
import subprocess
from pathlib import Path

# what the run was last made with, and found; of another version the run takes the mail, and says so
LAST = {"python3-flufl.bounce": "4.0-3", "libpython3.11-testsuite": "3.11.2-6+deb12u9"}
MESSAGES = 162
READABLE = 127


class NoMail(AssertionError):
    """A package is not there, or its version has no mail."""


def packages() -> list[str]:
    """flufl.bounce, and the test suite of Debian's own Python, whichever that is."""
    return ["python3-flufl.bounce", f"lib{Path('/usr/bin/python3').resolve().name}-testsuite"]


def asked(*words: str) -> str:
    """What a command of dpkg answers; nothing where it knows no such package."""
    return subprocess.run(words, capture_output=True, text=True).stdout


def files(package: str) -> list[Path]:
    state, _, version = asked("dpkg-query", "-W", "-f", "${db:Status-Status} ${Version}", package).partition(" ")
    last = f"the run was last made with {LAST.get(package, 'no version of it')}"
    if state != "installed":
        raise NoMail(f"{package} is not installed, which tools/install does; {last}")
    listed = [Path(line) for line in asked("dpkg", "-L", package).splitlines()]
    found = sorted(path for path in listed if path.suffix == ".txt" and path.parent.name == "data" and path.is_file())
    if not found:
        raise NoMail(f"{package} {version} has no mail; {last}")
    if version != LAST.get(package):
        print(f"real mail: {len(found)} messages of {package} {version}; {last}")
    return found


@functools.cache
def header_blocks() -> list[bytes]:
    """The octets of each message up to its first empty line, its length limited as a front end would."""
    return [header_block(path.read_bytes()) for package in packages() for path in files(package)]


def header_block(message: bytes) -> bytes:
    lines, block = message.split(b"\n"), b""
    for line in lines:
        block += line + b"\n"
        if line in (b"", b"\r"):
            break
    return block[:65_536]


if __name__ == "__main__":
    print(*packages())
