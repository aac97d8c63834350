"""Header blocks, and the type of a message."""

# B1: a longer block is unreadable.
BLOCK_LIMIT = 65_536

# B13: the type that is looked for.
REPORT = b"multipart/report"


def fields(block: bytes) -> list[tuple[bytes, bytes]] | None:
    """The fields of a block, each a name as it stands and its unfolded value.

    None where the block is unreadable.
    """
    # B1: all octets of the argument count, those behind the empty line too.
    if len(block) > BLOCK_LIMIT:
        return None
    found: list[tuple[bytes, bytes]] = []
    for line in lines_of(block):
        # B5: the first empty line ends the block; the lines behind it are not looked at.
        if line == b"":
            return found
        if line[0] in b" \t":
            # B6: a blank in front continues the field above, be the line all blanks;
            # without a field above the block is unreadable.
            if found == []:
                return None
            # B9: only line endings go; the blank in front stays with the value.
            name, value = found[-1]
            found[-1] = (name, value + line)
        else:
            # B7: a name of octets 33 to 126, and a colon right behind it. B8: any other
            # line makes the block unreadable.
            colon = line.find(b":")
            if colon < 1 or not all(33 <= octet <= 126 for octet in line[:colon]):
                return None
            # B7, B10: the value is all that follows the first colon, whatever octets.
            found.append((line[:colon], line[colon + 1:]))
    return found


def lines_of(block: bytes) -> list[bytes]:
    """The lines of a block, without their endings."""
    # B2: LF ends a line, and takes one CR in front of it along; the last line may do
    # without. B3, B4: any other CR is an octet of its line, at the block's end too.
    pieces = block.split(b"\n")
    ended, last = pieces[:-1], pieces[-1]
    lines = [piece[:-1] if piece.endswith(b"\r") else piece for piece in ended]
    if last != b"":
        lines.append(last)
    return lines


def same_name(a: bytes, b: bytes) -> bool:
    """Whether two field names are the same."""
    # B11: the case of ASCII letters does not matter. (On octets `lower` changes no others.)
    return a.lower() == b.lower()


def values_of(found: list[tuple[bytes, bytes]], name: bytes) -> list[bytes]:
    """The values of all fields of one name, in order."""
    # B11: none of them hides another.
    return [value for its_name, value in found if same_name(its_name, name)]


def is_report(value: bytes) -> bool:
    """Whether a Content-Type value is multipart/report."""
    # B13: blanks may stand in front, comments may not; the case does not matter.
    start = 0
    while start < len(value) and value[start] in b" \t":
        start += 1
    end = start + len(REPORT)
    if value[start:end].lower() != REPORT:
        return False
    # B13: what may follow directly.
    return end == len(value) or value[end] in b" \t;("
