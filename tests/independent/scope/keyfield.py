"""The value of an Autocrypt or Autocrypt-Gossip field."""

from dataclasses import dataclass

from scope import base64
from scope.address import canonical, is_plain
from scope.table import KEY_LIMIT


@dataclass(frozen=True)
class Field:
    """What a field valid in form says (F11)."""
    address: bytes  # canonical
    mutual: bool
    key: bytes


def read(value: bytes) -> Field | None:
    """What an unfolded value says; None where the field is spoiled."""
    # F1: cut at every `;`, whatever stands around it. F3: a value of no octets is a piece
    # too.
    attributes = []
    for piece in value.split(b";"):
        attribute = part(piece)
        if attribute is None:
            return None
        attributes.append(attribute)
    # F4: names are compared octet by octet. F5: one that opens with `_` is passed over, any
    # other unknown one spoils the field.
    names = [name for name, _ in attributes]
    for name in names:
        if name not in (b"addr", b"prefer-encrypt", b"keydata") and not name.startswith(b"_"):
            return None
    # F6, F8: `addr` and `keydata` stand once each.
    if names.count(b"addr") != 1 or names.count(b"keydata") != 1:
        return None
    # F8: no piece stands behind `keydata`, not even one that is passed over.
    if names[-1] != b"keydata":
        return None
    # F7: `prefer-encrypt` stands once or not at all.
    if names.count(b"prefer-encrypt") > 1:
        return None
    values = dict(attributes)
    # F6: the address is plain, with nothing around it.
    if not is_plain(values[b"addr"]):
        return None
    # F7: only this value is a preference; another one spoils nothing.
    mutual = values.get(b"prefer-encrypt") == b"mutual"
    # F9, F10: Base64 of 1 to 2,048 octets.
    key = base64.decode(values[b"keydata"])
    if key is None or not 1 <= len(key) <= KEY_LIMIT:
        return None
    # F11: the address in canonical form, the preference and the key.
    return Field(canonical(values[b"addr"]), mutual, key)


def part(piece: bytes) -> tuple[bytes, bytes] | None:
    """The name and the value of one piece; None where it spoils the field."""
    # F3: a piece without `=` spoils the field, and so does an empty name. F2: the first `=`
    # parts name and value, and blanks at their ends are taken off.
    if b"=" not in piece:
        return None
    name, value = piece.split(b"=", 1)
    name, value = name.strip(b" \t"), value.strip(b" \t")
    if name == b"":
        return None
    return name, value


def counted(values: list[bytes], sender: bytes) -> Field | None:
    """The field that counts among the values of all Autocrypt fields; None for none."""
    # F12: valid is a field that is valid in form and about the sender.
    valid = []
    for value in values:
        field = read(value)
        if field is not None and field.address == canonical(sender):
            valid.append(field)
    # F13: one valid field counts, and of two or more none does; others play no part.
    return valid[0] if len(valid) == 1 else None
