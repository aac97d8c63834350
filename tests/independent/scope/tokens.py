"""The tokens that lists and dates share: blanks, comments, quoted strings, runs."""

# L2: how deep comments may stand in one another.
COMMENT_DEPTH = 16

SPACE, TAB, QUOTE, OPEN, CLOSE, BACKSLASH = b' \t"()\\'

# L1: the nineteen signs of an atom (RFC 5322, section 3.2.3).
ATOM_SIGNS = b"!#$%&'*+-/=?^_`{|}~"


# L1: a space or a tab.
def is_blank(octet: int) -> bool:
    return octet in (SPACE, TAB)


def is_digit(octet: int) -> bool:
    return ord("0") <= octet <= ord("9")


def is_letter(octet: int) -> bool:
    return ord("A") <= octet <= ord("Z") or ord("a") <= octet <= ord("z")


# L1: letters, digits, the signs, and all octets from 128 on.
def is_atom_octet(octet: int) -> bool:
    return is_letter(octet) or is_digit(octet) or octet in ATOM_SIGNS or octet >= 128


# L1: what lies below 32, and 127; the tab is none.
def is_control(octet: int) -> bool:
    return (octet < 32 or octet == 127) and octet != TAB


def skip(s: bytes, at: int) -> int | None:
    """The place behind all spaces, tabs and comments from `at`; None: unreadable."""
    # L11: blanks and comments in any number. L2: each comment counts its depth from 1.
    while at < len(s):
        if is_blank(s[at]):
            at += 1
        elif s[at] == OPEN:
            behind = comment(s, at)
            if behind is None:
                return None
            at = behind
        else:
            return at
    return at


def comment(s: bytes, at: int) -> int | None:
    """The place behind the comment that opens at `at`; None: unreadable."""
    depth = 0
    while at < len(s):
        # L5: no control octet, also not in comments.
        if is_control(s[at]):
            return None
        if s[at] == BACKSLASH:
            # L4: the octet behind a backslash means nothing more, but one has to be there.
            # L5: and may be no control octet either.
            if at + 1 == len(s) or is_control(s[at + 1]):
                return None
            at += 2
            continue
        if s[at] == OPEN:
            # L2: one more comment inside another, unless that is too deep.
            depth += 1
            if depth > COMMENT_DEPTH:
                return None
        # L2: a comment ends with the parenthesis that belongs to it.
        elif s[at] == CLOSE:
            depth -= 1
            if depth == 0:
                return at + 1
        at += 1
    # L2: a comment that does not close is unreadable.
    return None


def quoted(s: bytes, at: int) -> int | None:
    """The place behind the quoted string whose opening quote is s[at]; None: unreadable."""
    at += 1
    while at < len(s):
        # L5: no control octet, as in comments.
        if is_control(s[at]):
            return None
        # L4, L5: a backslash takes the octet behind it along, as in comments.
        if s[at] == BACKSLASH:
            if at + 1 == len(s) or is_control(s[at + 1]):
                return None
            at += 2
        # L3: the next quote closes.
        elif s[at] == QUOTE:
            return at + 1
        else:
            at += 1
    # L3: a quoted string that does not close is unreadable.
    return None


def digits_end(s: bytes, at: int) -> int:
    """The end of the run of digits that starts at `at`, `at` itself if there is none."""
    while at < len(s) and is_digit(s[at]):
        at += 1
    return at


def letters_end(s: bytes, at: int) -> int:
    """The end of the run of ASCII letters that starts at `at`."""
    while at < len(s) and is_letter(s[at]):
        at += 1
    return at


def atom_end(s: bytes, at: int) -> int:
    """The end of the atom that starts at `at`."""
    while at < len(s) and is_atom_octet(s[at]):
        at += 1
    return at
