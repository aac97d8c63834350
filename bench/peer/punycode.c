#include "punycode.h"

/* RFC 3492, section 5. */
enum { BASE = 36, TMIN = 1, TMAX = 26, SKEW = 38, DAMP = 700, INITIAL_BIAS = 72, INITIAL_N = 128 };

/* A number above this one leads past U+10FFFF, in whatever label. */
#define SUM_LIMIT (UINT64_C(1) << 32)

static const char digits[] = "abcdefghijklmnopqrstuvwxyz0123456789";

static int digit_of(uint8_t octet) {
    if (is(octet, LETTER)) return lower(octet) - 'a';
    return is(octet, DIGIT) ? octet - '0' + 26 : -1;
}

/* A digit below this one ends its number. */
static unsigned threshold(unsigned k, unsigned bias) {
    return k <= bias + TMIN ? TMIN : k >= bias + TMAX ? TMAX : k - bias;
}

static unsigned adapted(uint64_t delta, uint64_t many, bool first) {
    unsigned k = 0;
    delta /= first ? DAMP : 2;
    delta += delta / many;
    for (; delta > (BASE - TMIN) * TMAX / 2; k += BASE) delta /= BASE - TMIN;
    return k + (unsigned)((BASE - TMIN + 1) * delta / (delta + SKEW));
}

/* Writes a number; behind its last digit, or NULL where there is too little room. */
static uint8_t *put_number(uint64_t number, unsigned bias, uint8_t *out, const uint8_t *end) {
    for (unsigned k = BASE;; k += BASE) {
        unsigned t = threshold(k, bias);
        if (out == end) return NULL;
        if (number < t) break;
        *out++ = (uint8_t)digits[t + (number - t) % (BASE - t)];
        number = (number - t) / (BASE - t);
    }
    *out++ = (uint8_t)digits[number];
    return out;
}

size_t encode_points(const uint32_t *points, size_t n, uint8_t *out, size_t room) {
    uint8_t *to = out, *end = out + room;
    for (size_t i = 0; i < n; i++) {
        if (points[i] >= INITIAL_N) continue;
        if (to == end) return 0;
        *to++ = (uint8_t)points[i];
    }
    size_t basic = (size_t)(to - out), handled = basic;
    if (basic > 0) {
        if (to == end) return 0;
        *to++ = '-';
    }
    uint32_t next = INITIAL_N;
    uint64_t delta = 0;
    unsigned bias = INITIAL_BIAS;
    while (handled < n) {
        uint32_t least = LAST_POINT;
        for (size_t i = 0; i < n; i++) {
            if (points[i] >= next && points[i] < least) least = points[i];
        }
        delta += (uint64_t)(least - next) * (handled + 1);
        next = least;
        for (size_t i = 0; i < n; i++) {
            if (points[i] < next) delta++;
            if (points[i] != next) continue;
            to = put_number(delta, bias, to, end);
            if (to == NULL) return 0;
            bias = adapted(delta, handled + 1, handled == basic);
            delta = 0;
            handled++;
        }
        delta++;
        next++;
    }
    return (size_t)(to - out);
}

/* Reads a number and adds it; behind its last digit, or NULL where it is none. A digit that does not end it is 1 or more,
 * so the weight is at most 35 times the sum, and nothing overflows before the sum is too large. */
static const uint8_t *add_number(uint64_t *sum, unsigned bias, const uint8_t *s, const uint8_t *end) {
    uint64_t weight = 1;
    for (unsigned k = BASE; s < end; k += BASE) {
        int digit = digit_of(*s++);
        unsigned t = threshold(k, bias);
        if (digit < 0) return NULL;
        *sum += (unsigned)digit * weight;
        if (*sum > SUM_LIMIT) return NULL;
        if ((unsigned)digit < t) return s;
        weight *= BASE - t;
    }
    return NULL;
}

long decode_points(const uint8_t *s, size_t n, uint32_t *points) {
    const uint8_t *end = s + n;
    size_t many = n > 0 ? n - 1 : 0;
    while (many > 0 && s[many] != '-') many--;
    /* a delimiter that comes first is none, and no digit either */
    for (size_t i = 0; i < many; i++) points[i] = s[i];
    if (many > 0) s += many + 1;
    uint64_t at = 0, point = INITIAL_N;
    unsigned bias = INITIAL_BIAS;
    while (s < end) {
        uint64_t before = at;
        s = add_number(&at, bias, s, end);
        if (s == NULL) return -1;
        many++;
        bias = adapted(at - before, many, before == 0);
        point += at / many;
        at %= many;
        if (point > LAST_POINT || (point >= FIRST_SURROGATE && point <= LAST_SURROGATE)) return -1;
        memmove(points + at + 1, points + at, (many - 1 - at) * sizeof points[0]);
        points[at++] = (uint32_t)point;
    }
    return (long)many;
}
