"""Punycode as RFC 3492 has it: code points written in ASCII, and read back.

The steps are those of its sections 6.1 to 6.3. Numbers are as large as they come, so that nothing
overflows.
"""

from scope.utf8 import FIRST_SURROGATE, LAST_POINT, LAST_SURROGATE

# L23: the numbers of section 5.
BASE = 36
TMIN = 1
TMAX = 26
SKEW = 38
DAMP = 700
INITIAL_BIAS = 72
INITIAL_N = 128
DELIMITER = ord("-")

# L23: the digits 0 to 35 as they are written, in small letters.
DIGITS = b"abcdefghijklmnopqrstuvwxyz0123456789"


def encode(points: list[int]) -> bytes:
    """The Punycode of code points."""
    # L23: the steps of section 6.3. Those of ASCII come first, as they are, and the delimiter
    # behind them if there is one.
    basic = [point for point in points if point < INITIAL_N]
    output = bytearray(basic)
    if basic:
        output.append(DELIMITER)
    n, delta, bias = INITIAL_N, 0, INITIAL_BIAS
    handled = len(basic)
    # The others follow from the smallest to the largest, equal ones in their order.
    while handled < len(points):
        least = min(point for point in points if point >= n)
        delta += (least - n) * (handled + 1)
        n = least
        for point in points:
            if point < n:
                delta += 1
            if point == n:
                output += variable_length(delta, bias)
                bias = adapted(delta, handled + 1, handled == len(basic))
                delta = 0
                handled += 1
        delta += 1
        n += 1
    return bytes(output)


def variable_length(number: int, bias: int) -> bytes:
    """The digits of a number, the least significant one first."""
    digits = bytearray()
    k = BASE
    while number >= threshold(k, bias):
        t = threshold(k, bias)
        digits.append(DIGITS[t + (number - t) % (BASE - t)])
        number = (number - t) // (BASE - t)
        k += BASE
    digits.append(DIGITS[number])
    return bytes(digits)


def threshold(k: int, bias: int) -> int:
    """A digit below this one ends its number."""
    if k <= bias + TMIN:
        return TMIN
    if k >= bias + TMAX:
        return TMAX
    return k - bias


def adapted(delta: int, many: int, first: bool) -> int:
    """The bias for the number behind `delta`, where so many code points are there (6.1)."""
    delta = delta // DAMP if first else delta // 2
    delta += delta // many
    k = 0
    while delta > (BASE - TMIN) * TMAX // 2:
        delta //= BASE - TMIN
        k += BASE
    return k + (BASE - TMIN + 1) * delta // (delta + SKEW)


def decode(text: bytes) -> list[int] | None:
    """The code points that a text decodes to; None for nothing."""
    # L23: the steps of section 6.2. What stands before the last delimiter is ASCII, and is taken
    # as it is. The delimiter itself is passed over only if something stands before it: one that
    # comes first, and has no other behind it, is read as a digit, which it is not.
    end = max(text.rfind(DELIMITER), 0)
    output = list(text[:end])
    if any(point >= INITIAL_N for point in output):
        return None
    at = end + 1 if end > 0 else 0
    n, i, bias = INITIAL_N, 0, INITIAL_BIAS
    while at < len(text):
        before, weight, k = i, 1, BASE
        while True:
            # L23: the text ends inside a number.
            if at == len(text):
                return None
            digit = digit_value(text[at])
            at += 1
            # L23: the character is no digit.
            if digit is None:
                return None
            i += digit * weight
            t = threshold(k, bias)
            if digit < t:
                break
            weight *= BASE - t
            k += BASE
        many = len(output) + 1
        bias = adapted(i - before, many, before == 0)
        n += i // many
        i %= many
        # L23: past U+10FFFF, and a surrogate.
        if n > LAST_POINT or FIRST_SURROGATE <= n <= LAST_SURROGATE:
            return None
        output.insert(i, n)
        i += 1
    return output


def digit_value(octet: int) -> int | None:
    # L23: digits are read in any case.
    if ord("A") <= octet <= ord("Z"):
        return octet - ord("A")
    return DIGITS.index(octet) if octet in DIGITS else None
