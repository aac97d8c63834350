#include "address.h"

#include "punycode.h"

enum { COMMENT_DEPTH = 16, POINT_OCTETS = 4 };

static bool follows(const uint8_t *s, size_t n) {
    for (size_t i = 0; i < n; i++) {
        if ((s[i] & 0xc0) != 0x80) return false;
    }
    return true;
}

/* L20: how many octets the code point at the front of `s` has; 0 where it is not well formed. */
static size_t point_length(const uint8_t *s, size_t n) {
    if (s[0] < 0x80) return 1;
    if (s[0] < 0xc2 || s[0] > 0xf4) return 0;
    size_t length = s[0] < 0xe0 ? 2 : s[0] < 0xf0 ? 3 : 4;
    if (n < length || !follows(s + 1, length - 1)) return 0;
    if (s[0] == 0xe0 && s[1] < 0xa0) return 0; /* longer than needed */
    if (s[0] == 0xed && s[1] > 0x9f) return 0; /* a surrogate */
    if (s[0] == 0xf0 && s[1] < 0x90) return 0; /* longer than needed */
    if (s[0] == 0xf4 && s[1] > 0x8f) return 0; /* above U+10FFFF */
    return length;
}

static bool well_formed(const uint8_t *s, size_t n) {
    while (n > 0) {
        size_t length = point_length(s, n);
        if (length == 0) return false;
        s += length;
        n -= length;
    }
    return true;
}

static unsigned point_of_two(const uint8_t *s) { return (s[0] & 31u) << 6 | (s[1] & 63u); }

/* L21: the small letter of a code point above ASCII. */
static unsigned small_letter(unsigned point) {
    if (point >= 0xc0 && point <= 0xde && point != 0xd7) return point + 32;
    if (point >= 0x391 && point <= 0x3ab && point != 0x3a2) return point + 32;
    if (point >= 0x400 && point <= 0x40f) return point + 80;
    if (point >= 0x410 && point <= 0x42f) return point + 32;
    return point;
}

/* L21: small letters beyond ASCII in a local part, if it is well formed. They and their capitals have two octets. */
static void small_local_part(uint8_t *s, size_t n) {
    uint8_t *end = s + n;
    if (!well_formed(s, n)) return;
    for (size_t length; s < end; s += length) {
        length = point_length(s, (size_t)(end - s));
        if (length != 2) continue;
        unsigned point = small_letter(point_of_two(s));
        s[0] = (uint8_t)(0xc0 | point >> 6);
        s[1] = (uint8_t)(0x80 | (point & 63));
    }
}

/* L21: the code point of so many octets, in lower case. */
static uint32_t small_point(const uint8_t *s, size_t length) {
    switch (length) {
    case 1: return lower(s[0]);
    case 2: return small_letter(point_of_two(s));
    case 3: return (s[0] & 15u) << 12 | (s[1] & 63u) << 6 | (s[2] & 63u);
    default: return (s[0] & 7u) << 18 | (s[1] & 63u) << 12 | (s[2] & 63u) << 6 | (s[3] & 63u);
    }
}

/* L22: writes the form of a label that is not in ASCII; its length, 0 where it has none or one that is too long. */
static size_t coded_form(uint8_t *out, const uint8_t *s, size_t n) {
    uint32_t points[POINTS_LIMIT];
    size_t many = 0;
    while (n > 0) {
        size_t length = point_length(s, n);
        if (length == 0 || many == POINTS_LIMIT) return 0;
        points[many++] = small_point(s, length);
        s += length;
        n -= length;
    }
    memcpy(out, "xn--", 4);
    size_t length = encode_points(points, many, out + 4, LABEL_LIMIT - 4);
    return length == 0 ? 0 : 4 + length;
}

size_t label_form(uint8_t *out, const uint8_t *s, size_t n) {
    unsigned seen = 0;
    if (n == 0 || s[0] == '-' || s[n - 1] == '-') return 0;
    for (size_t i = 0; i < n; i++) {
        if (!is(s[i], LABEL | HIGH)) return 0;
        seen |= octet_kind[s[i]];
    }
    if (seen & HIGH) return coded_form(out, s, n);
    if (n > LABEL_LIMIT) return 0;
    for (size_t i = 0; i < n; i++) out[i] = lower(s[i]);
    return n;
}

bool plain_address(const uint8_t *s, size_t n, struct kinds *kinds) {
    const uint8_t *p = s, *end = s + n;
    unsigned local = 0, domain = 0;
    if (n > POINT_OCTETS * ADDRESS_LIMIT) return false; /* a code point takes one octet of the form at least */
    for (;;) {
        const uint8_t *atom = p;
        while (p < end && is(*p, ATOM)) local |= octet_kind[*p++];
        if (p == atom || p == end) return false;
        if (*p == '@') break;
        if (*p++ != '.') return false;
    }
    if (p - s > LOCAL_LIMIT) return false;
    p++;
    size_t form = (size_t)(p - s);
    for (;; form++) {
        const uint8_t *label = p;
        unsigned seen = 0;
        while (p < end && is(*p, LABEL | HIGH)) seen |= octet_kind[*p++];
        if (p == label || *label == '-' || p[-1] == '-') return false;
        size_t length = (size_t)(p - label);
        if (seen & HIGH) {
            uint8_t coded[LABEL_LIMIT];
            length = coded_form(coded, label, length);
            if (length == 0) return false;
        } else if (length > LABEL_LIMIT) {
            return false;
        }
        form += length;
        domain |= seen;
        if (p == end) break;
        if (*p++ != '.') return false;
    }
    *kinds = (struct kinds){local, domain};
    return form <= ADDRESS_LIMIT;
}

/* The form of an address with octets above ASCII on some side. */
static size_t make_form(uint8_t *out, const uint8_t *s, size_t n) {
    const uint8_t *end = s + n;
    size_t length = (size_t)((const uint8_t *)memchr(s, '@', n) - s);
    for (size_t i = 0; i < length; i++) out[i] = lower(s[i]);
    small_local_part(out, length);
    out[length] = '@';
    s += ++length;
    for (;;) {
        const uint8_t *dot = memchr(s, '.', (size_t)(end - s)), *stop = dot ? dot : end;
        length += label_form(out + length, s, (size_t)(stop - s));
        if (dot == NULL) return length;
        out[length++] = '.';
        s = dot + 1;
    }
}

size_t make_canonical(uint8_t *out, const uint8_t *s, size_t n) {
    uint8_t octets = 0;
    if (n > ADDRESS_LIMIT) return make_form(out, s, n);
    for (size_t i = 0; i < n; i++) {
        octets |= s[i];
        out[i] = lower(s[i]);
    }
    return octets & 128 ? make_form(out, s, n) : n;
}

bool canonical_address(const uint8_t *s, size_t n, const struct kinds *kinds) {
    bool capital = false;
    if ((kinds->local | kinds->domain) & CAPITAL || kinds->domain & HIGH) return false;
    if (!(kinds->local & HIGH)) return true;
    for (size_t length; *s != '@'; s += length, n -= length) {
        length = point_length(s, n);
        if (length == 0) return true; /* no UTF-8, so its capitals stay */
        if (length == 2 && !capital) capital = small_letter(point_of_two(s)) != point_of_two(s);
    }
    return !capital;
}

/* Behind the comment that opens at `s`; NULL where it is unreadable. */
static const uint8_t *skip_comment(const uint8_t *s, const uint8_t *end) {
    int depth = 0;
    for (; s < end; s++) {
        if (is(*s, CONTROL)) return NULL;
        if (*s == '\\') {
            if (++s == end || is(*s, CONTROL)) return NULL;
        } else if (*s == '(') {
            if (++depth > COMMENT_DEPTH) return NULL;
        } else if (*s == ')') {
            if (--depth == 0) return s + 1;
        }
    }
    return NULL;
}

const uint8_t *skip_blanks(const uint8_t *s, const uint8_t *end) {
    while (s < end) {
        if (is(*s, BLANK)) {
            s++;
        } else if (*s == '(') {
            s = skip_comment(s, end);
            if (s == NULL) return NULL;
        } else {
            break;
        }
    }
    return s;
}

/* Behind the quoted string that opens at `s`; NULL where it is unreadable. */
static const uint8_t *skip_quoted(const uint8_t *s, const uint8_t *end) {
    for (s++; s < end; s++) {
        if (is(*s, CONTROL)) return NULL;
        if (*s == '"') return s + 1;
        if (*s == '\\' && (++s == end || is(*s, CONTROL))) return NULL;
    }
    return NULL;
}

struct list {
    const uint8_t *begin, *end;
    struct span *found;
    long room, count;
};

/* The readers take the first octet of what they read, and answer the place behind it and behind the blanks and comments
 * that follow; NULL where it is unreadable. */

static const uint8_t *read_address(struct list *list, const uint8_t *s) {
    const uint8_t *from = s;
    struct kinds kinds;
    while (s < list->end && (is(*s, ATOM) || *s == '.' || *s == '@')) s++;
    if (!plain_address(from, (size_t)(s - from), &kinds)) return NULL;
    if (list->count < list->room) {
        list->found[list->count] = (struct span){(size_t)(from - list->begin), (size_t)(s - from)};
    }
    list->count++;
    return skip_blanks(s, list->end);
}

static const uint8_t *read_angle(struct list *list, const uint8_t *s) {
    s = skip_blanks(s + 1, list->end);
    if (s == NULL) return NULL;
    s = read_address(list, s);
    if (s == NULL || s == list->end || *s != '>') return NULL;
    return skip_blanks(s + 1, list->end);
}

static const uint8_t *read_places(struct list *list, const uint8_t *s, bool inside);

static const uint8_t *read_group(struct list *list, const uint8_t *s) {
    s = skip_blanks(s + 1, list->end);
    if (s == NULL || s == list->end) return NULL;
    if (*s != ';') s = read_places(list, s, true);
    if (s == NULL || s == list->end || *s != ';') return NULL;
    return skip_blanks(s + 1, list->end);
}

static const uint8_t *read_place(struct list *list, const uint8_t *s, bool inside) {
    const uint8_t *from = s, *end = list->end;
    while (s < end && (is(*s, ATOM) || *s == '.')) s++;
    if (s < end && *s == '@') return read_address(list, from);
    /* no address: the words of a phrase, and what follows it */
    for (;;) {
        s = skip_blanks(s, end);
        if (s == NULL || s == end) return NULL;
        if (*s == '"') {
            s = skip_quoted(s, end);
            if (s == NULL) return NULL;
        } else if (is(*s, ATOM) || *s == '.') {
            do s++;
            while (s < end && (is(*s, ATOM) || *s == '.'));
        } else {
            break;
        }
    }
    if (*s == '<') return read_angle(list, s);
    if (*s == ':' && s > from && !inside) return read_group(list, s);
    return NULL;
}

static const uint8_t *read_places(struct list *list, const uint8_t *s, bool inside) {
    for (;;) {
        s = read_place(list, s, inside);
        if (s == NULL || s == list->end || *s != ',') return s;
        s = skip_blanks(s + 1, list->end);
        if (s == NULL) return NULL;
    }
}

long read_list(const uint8_t *s, size_t n, struct span *found, long room) {
    struct list list = {s, s + n, found, room, 0};
    const uint8_t *end = s + n;
    s = skip_blanks(s, end);
    if (s == NULL) return -1;
    s = read_places(&list, s, false);
    return s == end ? list.count : -1;
}
