/* Octets: their kinds, little-endian numbers, runs of zeros, lower case, a hash. */
#ifndef PEER_OCTETS_H
#define PEER_OCTETS_H

#include <stdbool.h>
#include <stddef.h>
#include <stdint.h>
#include <string.h>

/* A part of a text: its first place and its length. */
struct span {
    size_t at;
    size_t length;
};

enum {
    ATOM = 1,      /* in an atom: letters, digits, the signs of RFC 5322, 128 and above */
    LABEL = 2,     /* in a label: letters, digits, hyphen */
    LETTER = 4,
    DIGIT = 8,
    CAPITAL = 16,
    CONTROL = 32,  /* below 32, and 127, but not tab */
    BLANK = 64,    /* space and tab */
    NAME = 128,    /* in a field name: 33 to 126, but not the colon */
    HIGH = 256     /* 128 and above */
};
extern const uint16_t octet_kind[256];

static inline bool is(uint8_t octet, unsigned kinds) { return (octet_kind[octet] & kinds) != 0; }

enum { BASE64_BLANK = 64, BASE64_PAD = 65, BASE64_BAD = 66 };
extern const uint8_t base64_digit[256];

static inline uint64_t load64(const uint8_t *s) {
    uint64_t x;
    memcpy(&x, s, 8);
#if __BYTE_ORDER__ == __ORDER_BIG_ENDIAN__
    x = __builtin_bswap64(x);
#endif
    return x;
}

static inline void store64(uint8_t *s, uint64_t x) {
#if __BYTE_ORDER__ == __ORDER_BIG_ENDIAN__
    x = __builtin_bswap64(x);
#endif
    memcpy(s, &x, 8);
}

static inline uint32_t load16(const uint8_t *s) { return (uint32_t)s[0] | (uint32_t)s[1] << 8; }

static inline void store16(uint8_t *s, uint32_t x) {
    s[0] = (uint8_t)x;
    s[1] = (uint8_t)(x >> 8);
}

/* Only zeros? 64 octets a step, and out at the first step with another octet. */
static inline bool all_zero(const uint8_t *s, size_t n) {
    while (n >= 64) {
        uint64_t a = load64(s) | load64(s + 8), b = load64(s + 16) | load64(s + 24);
        uint64_t c = load64(s + 32) | load64(s + 40), d = load64(s + 48) | load64(s + 56);
        if ((a | b) | (c | d)) return false;
        s += 64;
        n -= 64;
    }
    uint64_t rest = 0;
    while (n >= 8) {
        rest |= load64(s);
        s += 8;
        n -= 8;
    }
    while (n > 0) {
        rest |= *s++;
        n--;
    }
    return rest == 0;
}

static inline uint8_t lower(uint8_t octet) { return is(octet, CAPITAL) ? octet + 32 : octet; }

static inline uint32_t hash(const uint8_t *s, size_t n) {
    const uint64_t prime = 0x9e3779b97f4a7c15u;
    uint64_t h = n * prime;
    while (n >= 8) {
        h = (h ^ load64(s)) * prime;
        h ^= h >> 29;
        s += 8;
        n -= 8;
    }
    uint64_t rest = 0;
    while (n > 0) {
        rest = rest << 8 | *s++;
        n--;
    }
    h = (h ^ rest) * prime;
    return (uint32_t)(h >> 32);
}

#endif
