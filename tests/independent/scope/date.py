"""The Date of a message, and its effective date."""

from scope.tokens import digits_end, is_digit, is_letter, letters_end, skip

# D7: the names of days. They are compared in small letters, since case means nothing.
DAY_NAMES = [b"mon", b"tue", b"wed", b"thu", b"fri", b"sat", b"sun"]

# D8: the names of months, compared likewise.
MONTH_NAMES = [b"jan", b"feb", b"mar", b"apr", b"may", b"jun",
               b"jul", b"aug", b"sep", b"oct", b"nov", b"dec"]

# D12: the zones that lie west, by their hours, and two that have no offset. Any other run
# of letters has none either.
ZONE_HOURS = {b"ut": 0, b"gmt": 0,
              b"est": -5, b"edt": -4, b"cst": -6, b"cdt": -5,
              b"mst": -7, b"mdt": -6, b"pst": -8, b"pdt": -7}

MINUTE = 60
HOUR = 60 * MINUTE
DAY = 24 * HOUR


def effective(dates: list[bytes], receipt: int) -> int:
    """The effective date, from the values of all Date fields and the receipt time."""
    # D1: there is one Date field and its value reads; else the Date is unavailable.
    date = seconds(dates[0]) if len(dates) == 1 else None
    # D2: the smaller of the two times, or the only one.
    return receipt if date is None else min(date, receipt)


def seconds(value: bytes) -> int | None:
    """The seconds since 1970-01-01 UTC of an unfolded Date value; None: unavailable."""
    tokens = tokens_of(value)
    if tokens is None:
        return None
    # D3, D7: a name with its comma may open the date. It is the name of some day, be it
    # the right one or not.
    if len(tokens) >= 2 and tokens[1] == b",":
        if tokens[0].lower() not in DAY_NAMES:
            return None
        tokens = tokens[2:]
    # D3: the parts in their order, the second with its colon or without both. D10: a
    # missing second is 0.
    if len(tokens) == 9:
        day_text, month_text, year_text, hh, colon, mm, colon_too, ss, zone = tokens
    elif len(tokens) == 7:
        day_text, month_text, year_text, hh, colon, mm, zone = tokens
        colon_too, ss = b":", b"00"
    else:
        return None
    if colon != b":" or colon_too != b":":
        return None
    # D8: a month is one of the twelve names.
    if month_text.lower() not in MONTH_NAMES:
        return None
    month = MONTH_NAMES.index(month_text.lower()) + 1
    year = year_of(year_text)
    # D10: two digits each, up to these limits. Second 60 may stand in any minute, and is
    # the second behind 59.
    hour = two_digits(hh, 23)
    minute = two_digits(mm, 59)
    second = two_digits(ss, 60)
    offset = offset_of(zone)
    if year is None or hour is None or minute is None or second is None or offset is None:
        return None
    # D8: one digit or two, for a day that the month has in that year.
    day = number(day_text, (1, 2))
    if day is None or not 1 <= day <= days_in_month(year, month):
        return None
    instant = days_from_1970(year, month, day) * DAY + hour * HOUR + minute * MINUTE + second
    # D13: the offset counts east, so it is taken away.
    instant -= offset
    # D13: what lies before 1970 is 0, and reads all the same.
    return max(instant, 0)


def tokens_of(value: bytes) -> list[bytes] | None:
    """The tokens of a Date value; None where it holds anything else."""
    # D5: blanks and comments, or nothing, on both sides of every token. D6: comments are
    # those of lists, and what spoils them there makes the Date unavailable.
    tokens = []
    at = skip(value, 0)
    while at is not None and at < len(value):
        end = token_end(value, at)
        if end == at:
            return None
        tokens.append(value[at:end])
        at = skip(value, end)
    return None if at is None else tokens


def token_end(value: bytes, at: int) -> int:
    """The end of the token that starts at `at`, `at` itself if there is none."""
    # D4: a run of digits, a run of letters, a sign with digits directly behind it, a comma
    # or a colon; nothing else is a token.
    if is_digit(value[at]):
        return digits_end(value, at)
    if is_letter(value[at]):
        return letters_end(value, at)
    if value[at] in b"+-":
        end = digits_end(value, at + 1)
        return end if end > at + 1 else at
    if value[at] in b",:":
        return at + 1
    return at


def number(token: bytes, widths: tuple[int, ...]) -> int | None:
    """The number of a run of digits with one of the given lengths; None for other tokens."""
    if len(token) not in widths or digits_end(token, 0) != len(token):
        return None
    total = 0
    for digit in token:
        total = total * 10 + (digit - ord("0"))
    return total


def two_digits(token: bytes, limit: int) -> int | None:
    """The number of two digits, from 0 to the limit; None for any other token."""
    found = number(token, (2,))
    if found is None or found > limit:
        return None
    return found


def year_of(token: bytes) -> int | None:
    """The year of a token; None where it is no year."""
    found = number(token, (2, 3, 4))
    if found is None:
        return None
    # D9: short years are counted from 2000 or 1900, and four digits say at least 1900.
    if len(token) == 2:
        return found + 2000 if found <= 49 else found + 1900
    if len(token) == 3:
        return found + 1900
    return found if found >= 1900 else None


def offset_of(token: bytes) -> int | None:
    """The seconds that the zone lies east of UTC; None where the token is no zone."""
    # D11: a sign and four digits, hours up to 99 and minutes up to 59; `+` lies east.
    if token[0] in b"+-":
        if len(token) != 5:
            return None
        hours = two_digits(token[1:3], 99)
        minutes = two_digits(token[3:5], 59)
        if hours is None or minutes is None:
            return None
        east = hours * HOUR + minutes * MINUTE
        return east if token[0] == ord("+") else -east
    # D12: one run of letters, long or short; most of them mean UTC.
    if is_letter(token[0]):
        return ZONE_HOURS.get(token.lower(), 0) * HOUR
    return None


def is_leap(year: int) -> bool:
    # D8: 4 divides it; 100 does not, or 400 does.
    return year % 4 == 0 and (year % 100 != 0 or year % 400 == 0)


def days_in_month(year: int, month: int) -> int:
    if month == 2:
        return 29 if is_leap(year) else 28
    return 30 if month in (4, 6, 9, 11) else 31


def days_in_year(year: int) -> int:
    return 366 if is_leap(year) else 365


def days_from_1970(year: int, month: int, day: int) -> int:
    """The days from 1970-01-01 to the given day, below zero before it."""
    days = 0
    for earlier in range(1970, year):
        days += days_in_year(earlier)
    for later in range(year, 1970):
        days -= days_in_year(later)
    for earlier in range(1, month):
        days += days_in_month(year, earlier)
    return days + day - 1
