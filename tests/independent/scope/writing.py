"""Writing Autocrypt and Autocrypt-Gossip fields: refusals 9, 11 and 12."""

from scope import base64
from scope.address import canonical, is_plain
from scope.table import KEY_LIMIT


def write_autocrypt(address: bytes, key: bytes, mutual: bool, room: int) -> tuple[int, bytes]:
    """The refusal number, 0 for none, and the field; no octets where refused.

    `room` is the length of the output.
    """
    # W3: without mutual the attribute is not there.
    preference = b" prefer-encrypt=mutual;" if mutual else b""
    return write(b"Autocrypt", preference, address, key, room)


def write_gossip(address: bytes, key: bytes, room: int) -> tuple[int, bytes]:
    """As above, for an Autocrypt-Gossip field."""
    # W3: another name, and no preference.
    return write(b"Autocrypt-Gossip", b"", address, key, room)


def write(name: bytes, preference: bytes, address: bytes, key: bytes,
          room: int) -> tuple[int, bytes]:
    # W1, R31: three refusals in this order. R34: a refused field has no octets.
    # R9: the address is not plain, or is not all there is.
    if not is_plain(address):
        return 9, b""
    # R11: the key is empty or too long.
    if not 1 <= len(key) <= KEY_LIMIT:
        return 11, b""
    # W2: the parts of a field in their order. W5: the address in canonical form. W4: the
    # lines of the key.
    field = (name + b": addr=" + canonical(address) + b";" + preference + b" keydata=\r\n"
             + base64.lines(key))
    # R12: the output is too short. W6: just as long as the field is enough.
    if room < len(field):
        return 12, b""
    return 0, field
