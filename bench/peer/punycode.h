/* Punycode by the steps of RFC 3492 (L23), for as many code points as a label may have. */
#ifndef PEER_PUNYCODE_H
#define PEER_PUNYCODE_H

#include "octets.h"

/* Behind `xn--` a label's form has 59 octets at most, and each code point takes one at least. */
enum { POINTS_LIMIT = 59, LAST_POINT = 0x10ffff, FIRST_SURROGATE = 0xd800, LAST_SURROGATE = 0xdfff };

/* Writes the Punycode of one code point or more; its length, or 0 where there is too little room. */
size_t encode_points(const uint32_t *points, size_t n, uint8_t *out, size_t room);

/* Decodes ASCII into `points`, which has room for as many as there are octets; how many there are, or -1 for nothing. */
long decode_points(const uint8_t *s, size_t n, uint32_t *points);

#endif
