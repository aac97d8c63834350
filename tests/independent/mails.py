"""Small mails for the tests: a few people, dates, and the two fields."""

import base64 as standard
import datetime

A, B, C, D = b"a@x.example", b"b@x.example", b"c@x.example", b"d@x.example"

# Five people who write to many.
GROUP = [b"p%d@x" % place for place in range(5)]

RECEIPT = 5_000_000


def date_text(seconds: int) -> bytes:
    moment = datetime.datetime(1970, 1, 1) + datetime.timedelta(seconds=seconds)
    return moment.strftime("%d %b %Y %H:%M:%S +0000").encode()


def key_field(address: bytes, key: bytes, mutual: bool = False, name: bytes = b"Autocrypt") -> bytes:
    preference = b"prefer-encrypt=mutual; " if mutual else b""
    return (name + b": addr=" + address + b"; " + preference + b"keydata="
            + standard.b64encode(key) + b"\r\n")


def gossip_field(address: bytes, key: bytes) -> bytes:
    return key_field(address, key, name=b"Autocrypt-Gossip")


def group_mail() -> list[tuple[bytes, bytes]]:
    """A hundred mails of GROUP, each to three of a hundred strangers, whose keys its payload tells."""
    mails = []
    for place in range(100):
        others = [b"s%d@x" % ((place + step) % 100) for step in range(3)]
        to = b"To: " + b", ".join(others) + b"\r\n"
        payload = b"".join(gossip_field(other, b"k") for other in others)
        mails.append((mail(GROUP[place % len(GROUP)], 1000 + place, to), payload))
    return mails


def mail(sender: bytes, date: int | None, *more: bytes) -> bytes:
    block = b"From: " + sender + b"\r\n"
    if date is not None:
        block += b"Date: " + date_text(date) + b"\r\n"
    return block + b"".join(more)
