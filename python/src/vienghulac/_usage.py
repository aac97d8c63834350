"""The words on the command line, and the help for them."""

from __future__ import annotations

import argparse
from importlib.metadata import version
from typing import Callable, Mapping

from ._linting import FaultKind
from ._table import SLOTS

Command = Callable[[argparse.Namespace], int]

_ABOUT = """\
Autocrypt Level 1: keys and preferences of correspondents, read from the mail
they send. They are kept in a table, a file with a slot of 4,392 octets for each
correspondent, 256 at most.

A refusal, or a file that cannot be read or written, is one line on standard
error and exit status 1; bad usage is 2.

With --json the answer is one JSON value, whose keys each command's --help names.
The key 'number' is for the number of a refusal alone, 0 where there is none."""

_IMPORT = """\
Read the messages of mailboxes, in their order, and bring a table up to date.

A MAILBOX is an mbox file or a Maildir. A message's header block is taken from
the file as it stands, octet by octet, up to and including the first empty line.
In an mbox file a message follows a line that opens with 'From ' and begins the
file or follows an empty line. In a Maildir it is a file of cur or new; older
ones come first.

The receipt time of a message is the date of its 'From ' line (UTC, unless the
line names a zone) or, where that has none, the mbox file's time; in a Maildir
it is the file's time of change. --receipt sets one time for all. Encrypted
payloads are not read, so no gossip is taken.

The table is written once, when all is read: a failure leaves the file as it
was. Imports into one table file run one after the other, by a lock on the file
.NAME.lock beside it, which stays there. One that waits says so after a second;
with --no-wait it fails at once. Of the other commands convert alone may wait.

The messages are counted by answer, 0 for those taken and the number of the
refusal for the others; a message that is refused changes nothing, and is no
failure of the import.

With --json: messages, their number; answers, how many have each answer; slots
and used, those of the table."""

_LIST = """\
List the correspondents of a table: address, when last seen, date and length of
the key from their own mail, preference, date and length of the key that others
sent (gossip). Times are UTC. An address is listed in its canonical form, with a
domain of ASCII; with --display as the command display shows it.

With --json, for each: slot; address, the canonical form; display, the same as
the command display shows it; last_seen; preference; and date and length of both
keys, as autocrypt_timestamp and direct_key_length, and as gossip_timestamp and
gossip_key_length. Times are seconds since 1970 or null, a key that is absent
has length 0, and octets of an address that are not UTF-8 are lone surrogates."""

_RECOMMEND = """\
Say whether a new mail to the RECIPIENTS (one argument, a list as in a To field,
of 1 to 100 addresses) should be encrypted:

  disable      it cannot be, since someone has no key
  discourage   it can be, but someone may not be able to read it
  available    it can be, if the user asks for it
  encrypt      it should be

With --quick the advice is the same, and behind it stands how many of the
RECIPIENTS were looked up, as in 'disable 2'. They are looked up in their order,
and none behind the first without a key. So with disable it is the place of
that one, counted from 1 (for --place of the command key it is one less), else
the length of the list. The list is read to its end all the same: it is refused
(10) just where it is without --quick.

With --json: advice, that word; advice_number, 1 to 4 in this order; with
--quick also looked_up, that count."""

_KEY = """\
Write the key to encrypt to, for one of the RECIPIENTS (one argument, a list as
in a To field), to standard output or to a file. The octets are those that came
in the mail; whether they are a good OpenPGP key, nobody has looked. Where that
recipient has no key, the exit status is 1.

With --json: length, in octets; key, as Base64."""

_FIELD = """\
Write the Autocrypt field for a mail from ADDRESS, or with --gossip the
Autocrypt-Gossip field for a recipient, to standard output, with CRLF at the end
of each line. The key file holds 1 to 2,048 octets, an OpenPGP key without
armor, as `gpg --export-options export-minimal --export` writes it. Ed25519 and
RSA-3072 keys fit, RSA-4096 keys do not.

With --json: name and value, the value on one line."""

_DISPLAY = """\
Show an ADDRESS as people read it: in small letters, and with the labels of its
domain that open with xn-- decoded. What is shown can be typed in place of the
address. So a label stays as it is where it does not decode, or where the
decoded text would be taken for another label, as capitals would. A character
that could steer the terminal, or that it lacks, is escaped with a backslash.

Nobody has looked whether a label is a good one: letters of several scripts look
alike, and two addresses that look the same may be two.

An ADDRESS that is not a plain one is refused (9).

With --json: display, the address shown. Octets of it that are not UTF-8 are
lone surrogates."""

_KINDS = "\n".join(f"  {kind.value}  {kind.words}" for kind in FaultKind)

_LINT = f"""\
Look over a mail that some program is about to send, and list what is wrong with
its Autocrypt and Autocrypt-Gossip fields. This is for authors of mail programs,
to try their mail before a release.

FILE holds the mail, or its header block alone. With --payload comes the root
part that is going to be encrypted, where gossip belongs, or the header block of
that alone. Each is read as it stands, octet by octet, up to and including its
first empty line. An mbox file is refused (4), since its first line is no field:
cut a mail out of it.

A line for each fault has the block, the place of the field among all fields of
that block, counted from 1, the field's name as it stands there, and what is
wrong, as in

  outer, field 3 (Autocrypt): {FaultKind.KEY_DATA.words}

These are the kinds of faults:

{_KINDS}

Kind 1 is about no field, and its line names none. Kinds 2 and 3 are about
Autocrypt fields of the outer block, 6 to 8 about gossip fields, 4 and 5 about
both. A field without an address, with several, or with one that is not plain
has the wrong one (3, 7). Recipients are those of To, Cc and Reply-To.

Where nothing is wrong the line is 'no faults', and the exit status 0. With
faults it is 1, as with a refusal: of FILE (4, 5) or of the payload (7).

With --json, for each fault: block, which is outer or payload; place, 0 for kind
1; field, that name, or null for kind 1; kind, a word for it, as key_data;
kind_number, 1 to 8 in this order; words, those of the line."""

_CHECK = """\
Say of each FILE whether it is a table. The exit status is 1 where one is not;
the line on standard error then has the number of the refusal and, for number 2,
the lowest slot that is damaged. No file is changed.

With --json, for each: file, its name; number, 0 for a table, else that of the
refusal, or null where the file cannot be read; slot, that slot or null."""

_CONVERT = """\
Bring the tables of older versions up to date. Up to version 0.3 addresses
differed by the case of letters with accents, and of Greek and Cyrillic letters.
A table with such capitals is refused (2) by all other commands, whose line on
standard error then names this one.

Each entry gets its address in small letters. Entries that then have one address
become one, in the lowest of their slots: with the latest time of last seen, and
with the latest key of their own and by gossip. Every other slot stays as it is,
and none moves.

Each FILE is replaced whole, and only where something changes; a table of today
stays as it is. What is refused stays as it is, too, and the exit status is 1;
the other files are done all the same. Where a file has to be replaced, the lock
of import is waited for; with --no-wait such a file fails at once.

The line for a FILE counts slots: those in use now; as renamed, those that hold
an entry with another spelling of its address than before; as merged, those that
became free because their entry went into another one.

With --json, for each: file, its name; number, 0 where all went well, else that
of the refusal, or null where the file cannot be read, locked or replaced; slot,
the lowest that is damaged, or null; slots, used, renamed and merged, these
counts, or null where number is not 0."""


def _natural(text: str) -> int:
    if text.isascii() and text.isdigit():
        return int(text)
    raise argparse.ArgumentTypeError(f"{text!r} is not a whole number from 0")


def parser(commands: Mapping[str, Command]) -> argparse.ArgumentParser:
    """The parser for commands under their names; it sets `run` to the command that was chosen."""
    whole = argparse.ArgumentParser(
        prog="vienghulac", description=_ABOUT, formatter_class=argparse.RawDescriptionHelpFormatter
    )
    whole.add_argument("--version", action="version", version=f"vienghulac {version('vienghulac')}")
    places = whole.add_subparsers(title="commands", metavar="COMMAND", required=True)

    def command(name: str, about: str, short: str) -> argparse.ArgumentParser:
        made = places.add_parser(name, description=about, help=short, formatter_class=argparse.RawDescriptionHelpFormatter)
        made.set_defaults(run=commands[name])
        made.add_argument("--json", action="store_true", help="answer in JSON, for programs")
        return made

    def with_table(made: argparse.ArgumentParser) -> argparse.ArgumentParser:
        made.add_argument("--table", metavar="FILE", required=True, help="the file that holds the table")
        return made

    made = with_table(command("import", _IMPORT, "read mailboxes and bring a table up to date"))
    made.add_argument("mailbox", metavar="MAILBOX", nargs="+", help="an mbox file or a Maildir")
    made.add_argument("--receipt", metavar="SECONDS", type=_natural, help="one receipt time for all messages, since 1970 UTC")
    made.add_argument(
        "--slots", metavar="N", type=_natural, default=SLOTS,
        help="slots of the table where FILE does not exist yet, 1 to 256 (default: 256)",
    )  # fmt: skip
    made.add_argument("--no-wait", action="store_true", help="fail at once where another program is changing the table")

    made = with_table(command("list", _LIST, "list the correspondents of a table"))
    made.add_argument("--display", action="store_true", help="show domains in their own script, not as xn-- labels")

    made = with_table(command("recommend", _RECOMMEND, "say whether a new mail should be encrypted"))
    made.add_argument("recipients", metavar="RECIPIENTS", help="a list of addresses, as in a To field")
    made.add_argument("--mutual", action="store_true", help="the sender prefers encryption too")
    made.add_argument("--reply", action="store_true", help="the mail answers an encrypted one")
    made.add_argument("--quick", action="store_true", help="also say how many were looked up")

    made = command("field", _FIELD, "write a field to send")
    made.add_argument("address", metavar="ADDRESS", help="the sender's address; with --gossip the recipient's")
    made.add_argument("--key", metavar="FILE", required=True, help="the file that holds the key; - for standard input")
    kind = made.add_mutually_exclusive_group()
    kind.add_argument("--mutual", action="store_true", help="with prefer-encrypt=mutual")
    kind.add_argument("--gossip", action="store_true", help="an Autocrypt-Gossip field")

    made = with_table(command("key", _KEY, "write the key to encrypt to"))
    made.add_argument("recipients", metavar="RECIPIENTS", help="a list of addresses, as in a To field")
    made.add_argument("--place", metavar="N", type=_natural, default=0, help="which recipient, counted from 0 (default: 0)")
    made.add_argument("--output", metavar="FILE", help="write the key to this file")

    made = command("display", _DISPLAY, "show an address in the script of its domain")
    made.add_argument("address", metavar="ADDRESS", help="an address, with nothing around it")

    made = command("lint", _LINT, "look over the fields of an outgoing mail")
    made.add_argument("file", metavar="FILE", help="the mail, or its header block; - for standard input")
    made.add_argument("--payload", metavar="FILE", help="the part to be encrypted, or its header block; - likewise")
    made.set_defaults(misused=made.error)

    made = command("check", _CHECK, "say whether files are tables")
    made.add_argument("file", metavar="FILE", nargs="+", help="a file")

    made = command("convert", _CONVERT, "bring the tables of older versions up to date")
    made.add_argument("file", metavar="FILE", nargs="+", help="a file that holds a table")
    made.add_argument("--no-wait", action="store_true", help="fail at once where another program is changing the table")
    return whole
