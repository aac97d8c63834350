/* Header blocks: one pass, in which the values that are wanted are unfolded. */
#ifndef PEER_BLOCK_H
#define PEER_BLOCK_H

#include "octets.h"

enum { BLOCK_LIMIT = 65536, VALUES_LIMIT = BLOCK_LIMIT / 3 };

enum field { OTHER, FROM, RECIPIENTS, DATE, CONTENT_TYPE, AUTOCRYPT, AUTOCRYPT_GOSSIP };

struct value {
    uint32_t at, length; /* of the text */
    enum field field;
};

struct values {
    uint32_t count;
    struct value value[VALUES_LIMIT];
    uint8_t text[BLOCK_LIMIT];
};

/* Reads the block; `wanted` is 1 << field for each field that is wanted. False where the block is unreadable. */
bool read_block(const uint8_t *s, size_t n, unsigned wanted, struct values *values);

/* Is the value of a Content-Type field multipart/report? */
bool is_report(const uint8_t *s, size_t n);

#endif
