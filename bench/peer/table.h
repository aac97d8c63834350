/* The table: its check, and the book of its addresses that the check makes on the way. */
#ifndef PEER_TABLE_H
#define PEER_TABLE_H

#include "octets.h"
#include "peer.h"

enum {
    SLOTS_LIMIT = 256,
    KEY_LIMIT = 2048,
    ADDRESS_LENGTH_AT = 2,
    BITS_AT = 4,
    LAST_SEEN_AT = 8,
    TIMESTAMP_AT = 16,
    GOSSIP_TIMESTAMP_AT = 24,
    DIRECT_LENGTH_AT = 32,
    GOSSIP_LENGTH_AT = 34,
    ADDRESS_AT = 40,
    DIRECT_AT = 296,
    GOSSIP_AT = 2344,
    SLOT = 4392
};
enum { SEEN = 1, DIRECT = 2, GOSSIP = 4, MUTUAL = 8 };

#define TIME_LIMIT UINT64_C(253402300799)

/* The addresses of a table by their hash: `place` holds 0, or a slot's number and one with the hash's upper half above.
 * A planned newcomer is in the book before it is in the table. */
struct book {
    uint32_t slots, mask, next_free, old_spellings;
    uint32_t place[2 * SLOTS_LIMIT];
    const uint8_t *address[SLOTS_LIMIT]; /* NULL: free */
    uint16_t length[SLOTS_LIMIT];
    bool is_old[SLOTS_LIMIT]; /* not in canonical form, as only a table of the old rule has them */
};

/* Checks the table, and fills the book where the answer is 0. */
peer_answer open_book(struct book *book, const uint8_t *table, size_t n);

/* The slot of the address, -1 for none. */
long find(const struct book *book, const uint8_t *address, size_t n);

/* The slot of the address, the lowest free one where it has none yet; -1 where there is no free one. */
long find_or_take(struct book *book, const uint8_t *address, size_t n);

#endif
