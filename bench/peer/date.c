#include "date.h"

#include "address.h"

enum { TOKENS = 11 };

struct token {
    const uint8_t *s;
    size_t n;
};

/* Three letters in lower case as one number; 0 for any other token. */
static uint32_t three(struct token t) {
    if (t.n != 3 || !is(*t.s, LETTER)) return 0;
    return (uint32_t)lower(t.s[0]) << 16 | (uint32_t)lower(t.s[1]) << 8 | lower(t.s[2]);
}

#define NAME3(a, b, c) ((uint32_t)(a) << 16 | (uint32_t)(b) << 8 | (uint32_t)(c))

static bool day_name(struct token t) {
    switch (three(t)) {
    case NAME3('m', 'o', 'n'): case NAME3('t', 'u', 'e'): case NAME3('w', 'e', 'd'): case NAME3('t', 'h', 'u'):
    case NAME3('f', 'r', 'i'): case NAME3('s', 'a', 't'): case NAME3('s', 'u', 'n'): return true;
    default: return false;
    }
}

static int month_of(struct token t) {
    switch (three(t)) {
    case NAME3('j', 'a', 'n'): return 1;
    case NAME3('f', 'e', 'b'): return 2;
    case NAME3('m', 'a', 'r'): return 3;
    case NAME3('a', 'p', 'r'): return 4;
    case NAME3('m', 'a', 'y'): return 5;
    case NAME3('j', 'u', 'n'): return 6;
    case NAME3('j', 'u', 'l'): return 7;
    case NAME3('a', 'u', 'g'): return 8;
    case NAME3('s', 'e', 'p'): return 9;
    case NAME3('o', 'c', 't'): return 10;
    case NAME3('n', 'o', 'v'): return 11;
    case NAME3('d', 'e', 'c'): return 12;
    default: return 0;
    }
}

/* The number of `least` to `most` digits; -1 for any other token. */
static int number(struct token t, size_t least, size_t most) {
    int total = 0;
    if (t.n < least || t.n > most || !is(*t.s, DIGIT)) return -1;
    for (size_t i = 0; i < t.n; i++) total = total * 10 + (t.s[i] - '0');
    return total;
}

static int year_of(struct token t) {
    int year = number(t, 2, 4);
    if (year < 0) return -1;
    if (t.n == 2) return year <= 49 ? year + 2000 : year + 1900;
    if (t.n == 3) return year + 1900;
    return year >= 1900 ? year : -1;
}

static bool zone_of(struct token t, int64_t *east) {
    *east = 0;
    if (*t.s == '+' || *t.s == '-') {
        if (t.n != 5) return false;
        int hours = (t.s[1] - '0') * 10 + (t.s[2] - '0'), minutes = (t.s[3] - '0') * 10 + (t.s[4] - '0');
        if (minutes > 59) return false;
        *east = hours * 3600 + minutes * 60;
        if (*t.s == '-') *east = -*east;
        return true;
    }
    switch (three(t)) {
    case NAME3('e', 'd', 't'): *east = -4 * 3600; break;
    case NAME3('e', 's', 't'): case NAME3('c', 'd', 't'): *east = -5 * 3600; break;
    case NAME3('c', 's', 't'): case NAME3('m', 'd', 't'): *east = -6 * 3600; break;
    case NAME3('m', 's', 't'): case NAME3('p', 'd', 't'): *east = -7 * 3600; break;
    case NAME3('p', 's', 't'): *east = -8 * 3600; break;
    default: break;
    }
    return is(*t.s, LETTER);
}

static int days_in_month(int year, int month) {
    static const uint8_t days[13] = {0, 31, 28, 31, 30, 31, 30, 31, 31, 30, 31, 30, 31};
    bool leap = year % 4 == 0 && (year % 100 != 0 || year % 400 == 0);
    return days[month] + (month == 2 && leap);
}

/* The days from 1 March of year 0, less those up to 1 January 1970. */
static int64_t days_from_1970(int year, int month, int day) {
    int64_t y = month <= 2 ? year - 1 : year, m = month <= 2 ? month + 9 : month - 3;
    return y * 365 + y / 4 - y / 100 + y / 400 + (m * 153 + 2) / 5 + day - 1 - 719468;
}

static size_t token_length(const uint8_t *s, const uint8_t *end) {
    const uint8_t *p = s;
    if (*s == ',' || *s == ':') return 1;
    if (is(*s, LETTER)) {
        while (p < end && is(*p, LETTER)) p++;
        return (size_t)(p - s);
    }
    if (*s == '+' || *s == '-') p++;
    const uint8_t *digits = p;
    while (p < end && is(*p, DIGIT)) p++;
    return p == digits ? 0 : (size_t)(p - s);
}

int64_t read_date(const uint8_t *s, size_t n) {
    struct token tokens[TOKENS], *t = tokens;
    const uint8_t *end = s + n;
    int count = 0;

    for (s = skip_blanks(s, end); s != end; s = skip_blanks(s, end)) {
        if (s == NULL || count == TOKENS) return -1;
        size_t length = token_length(s, end);
        if (length == 0) return -1;
        tokens[count++] = (struct token){s, length};
        s += length;
    }
    if (count >= 2 && *t[1].s == ',') {
        if (!day_name(t[0])) return -1;
        t += 2;
        count -= 2;
    }
    if ((count != 7 && count != 9) || *t[4].s != ':') return -1;
    int day = number(t[0], 1, 2), month = month_of(t[1]), year = year_of(t[2]);
    int hour = number(t[3], 2, 2), minute = number(t[5], 2, 2), second = 0;
    if (count == 9) {
        if (*t[6].s != ':') return -1;
        second = number(t[7], 2, 2);
    }
    int64_t east;
    if (month == 0 || year < 0 || day < 1 || day > days_in_month(year, month)) return -1;
    if (hour < 0 || hour > 23 || minute < 0 || minute > 59 || second < 0 || second > 60) return -1;
    if (!zone_of(t[count - 1], &east)) return -1;
    int64_t seconds = days_from_1970(year, month, day) * 86400 + hour * 3600 + minute * 60 + second - east;
    return seconds < 0 ? 0 : seconds;
}
