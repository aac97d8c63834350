"""Showing an address with its labels decoded: refusals 9 and 12."""

from scope import punycode, utf8
from scope.address import PREFIX, canonical, is_label, is_plain, label_form


def display(address: bytes, room: int) -> tuple[int, bytes]:
    """The refusal number, 0 for none, and the address shown; no octets where refused.

    `room` is the length of the output.
    """
    # W11, R31: two refusals in this order. R34: a refused one shows no octets.
    # R9: the address is not plain, or is not all there is.
    if not is_plain(address):
        return 9, b""
    text = shown(address)
    # R12: the output is too short. W11: just as long as what is shown is enough.
    if room < len(text):
        return 12, b""
    return 0, text


def shown(address: bytes) -> bytes:
    """A plain address as it is shown."""
    # W12: the canonical form, whose local part stays, and whose labels are looked at one by one.
    local, domain = canonical(address).split(b"@")
    return local + b"@" + b".".join(shown_label(label) for label in domain.split(b"."))


def shown_label(form: bytes) -> bytes:
    """What is shown for the form of a label."""
    # W12: a label that does not open with `xn--` stands as it is, and so does one that decodes to
    # nothing.
    if not form.startswith(PREFIX):
        return form
    points = punycode.decode(form[len(PREFIX):])
    if points is None:
        return form
    # W12: what it decodes to is shown if it is a label by the whole rule, and has just this form;
    # then it can be typed back.
    text = utf8.encoded(points)
    return text if is_label(text) and label_form(text) == form else form
