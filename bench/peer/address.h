/* Plain addresses, and lists of addresses. */
#ifndef PEER_ADDRESS_H
#define PEER_ADDRESS_H

#include "octets.h"

/* Of an address's form, its local part, and a label's form. */
enum { ADDRESS_LIMIT = 254, LOCAL_LIMIT = 64, LABEL_LIMIT = 63 };

/* The kinds of all octets on both sides of the `@`. */
struct kinds {
    unsigned local, domain;
};

/* Are the octets one plain address? */
bool plain_address(const uint8_t *s, size_t n, struct kinds *kinds);

/* L7, L22: writes the form of a label, 63 octets at most; its length, or 0 where it is no label. */
size_t label_form(uint8_t *out, const uint8_t *s, size_t n);

/* L8: writes the canonical form of a plain address, 254 octets at most; its length. `out` may be the address itself if its
 * domain is in ASCII, and so the form is as long. */
size_t make_canonical(uint8_t *out, const uint8_t *s, size_t n);

/* L8: is the plain address, of these kinds, its own canonical form? */
bool canonical_address(const uint8_t *s, size_t n, const struct kinds *kinds);

/* Behind the blanks and comments at `s`; NULL where a comment is unreadable. */
const uint8_t *skip_blanks(const uint8_t *s, const uint8_t *end);

/* How many addresses the list has, or -1 where it is unreadable. The first `room` of them are put into `found`. */
long read_list(const uint8_t *s, size_t n, struct span *found, long room);

#endif
