"""What the library writes: fields of outgoing mail, as octets and as what Python's `EmailMessage` takes, and addresses
that people can read."""

from __future__ import annotations

import ctypes
from email.policy import Policy
from typing import Any, Callable

from . import _library
from ._arguments import Octets, octets, truth
from ._refusals import refusal

_Room = ctypes.c_char * _library.FIELD  # more than the longest field, 3,145 octets
_Shown = ctypes.c_char * _library.DISPLAY  # no address shown is longer


class FieldValue(str):
    """The value of a field, with one blank before each piece of the key, that `EmailMessage` folds as the field stands.

    It is what Python's mail package calls a header object: a message keeps it as it is, and asks it for its lines.
    """

    name: str
    _field: bytes

    def __new__(cls, field: bytes) -> FieldValue:
        name, _, value = field.decode("ascii", "surrogateescape").partition(": ")
        made = super().__new__(cls, value.replace("\r\n", ""))
        made.name = name
        made._field = field
        return made

    def __reduce__(self) -> tuple[type[FieldValue], tuple[bytes]]:
        return type(self), (self._field,)

    def fold(self, *, policy: Policy) -> str:
        """The field's lines, each with the policy's line ending."""
        return self._field.decode("ascii", "surrogateescape").replace("\r\n", policy.linesep)


def autocrypt_field(address: Octets, key: Octets, mutual: bool = False) -> bytes:
    """The Autocrypt field of an outgoing mail: name and value, with CRLF at the end of each line.

    `address` is the sender's, `key` holds the octets of the sender's key, and `mutual` says that the sender prefers
    encryption. Raises `Refused` (9, 11).
    """
    return _written(_library.write_autocrypt, address, key, truth(mutual, "mutual"))


def gossip_field(address: Octets, key: Octets) -> bytes:
    """The Autocrypt-Gossip field that tells of one recipient, for the header block inside an encrypted mail.

    `address` and `key` are that recipient's. Raises `Refused` (9, 11).
    """
    return _written(_library.write_gossip, address, key)


def autocrypt_header(address: Octets, key: Octets, mutual: bool = False) -> tuple[str, FieldValue]:
    """The field of `autocrypt_field` as a name and a value: `message[name] = value` for an `EmailMessage`.

    The message then writes just the lines of `autocrypt_field`, with its policy's line endings.
    """
    return _pair(autocrypt_field(address, key, mutual))


def gossip_header(address: Octets, key: Octets) -> tuple[str, FieldValue]:
    """The field of `gossip_field` as a name and a value."""
    return _pair(gossip_field(address, key))


def display(address: Octets) -> bytes:
    """An address as people read it: its canonical form, with the labels of its domain decoded, in UTF-8.

    `A@XN--BCHER-KVA.example` is shown as `a@bücher.example`. A label stays in ASCII where it does not open with `xn--`,
    where it does not decode, and where the decoded text, given as a label, would not lead back to it. So what is shown
    can be given to every call in place of the address. Whether a label is a good one is not judged: its letters may
    look like others, and a character in it may steer a terminal. Octets of the local part that are no UTF-8 stand as
    they are, so decode the answer with an error handler. Raises `Refused` (9).
    """
    lent = octets(address, "address")
    out = _Shown()
    return _front(out, _library.display(lent, len(lent), out, len(out)))


def _pair(field: bytes) -> tuple[str, FieldValue]:
    value = FieldValue(field)
    return value.name, value


def _written(write: Callable[..., Any], address: Octets, key: Octets, *preference: bool) -> bytes:
    lent, lent_key = octets(address, "address"), octets(key, "key")
    out = _Room()
    return _front(out, write(lent, len(lent), lent_key, len(lent_key), *preference, out, len(out)))


def _front(out: ctypes.Array[ctypes.c_char], answer: _library.Written) -> bytes:
    """What was written to the front of an output."""
    if answer.number:
        raise refusal(answer.number)
    written: bytes = out[: answer.length]  # type: ignore[assignment]  # a slice of an array of c_char is bytes
    return written
