#include "address.h"
#include "peer.h"
#include "table.h"

enum { RECIPIENTS_LIMIT = 100, GAP_LIMIT = 3024000 };
enum { REFUSED, DISABLE, DISCOURAGE, AVAILABLE, ENCRYPT };

/* The slot of one recipient; NULL for none. */
static const uint8_t *slot_of(const struct book *book, const uint8_t *table, const uint8_t *address, size_t n) {
    uint8_t canonical[ADDRESS_LIMIT];
    n = make_canonical(canonical, address, n);
    long slot = find(book, canonical, n);
    return slot < 0 ? NULL : table + (size_t)slot * SLOT;
}

static uint32_t advice_for(const uint8_t *slot, bool mutual, bool reply) {
    if (slot == NULL || !(slot[BITS_AT] & (DIRECT | GOSSIP))) return DISABLE;
    if (reply) return ENCRYPT;
    if (!(slot[BITS_AT] & DIRECT)) return DISCOURAGE;
    if (load64(slot + LAST_SEEN_AT) - load64(slot + TIMESTAMP_AT) > GAP_LIMIT) return DISCOURAGE;
    return mutual && slot[BITS_AT] & MUTUAL ? ENCRYPT : AVAILABLE;
}

/* What all calls here do first: the number of recipients, with the answer's number where it is 0. */
static long opened(struct book *book, peer_answer *answer, const uint8_t *table, size_t table_length,
                   const uint8_t *recipients, size_t n, struct span *found) {
    *answer = open_book(book, table, table_length);
    if (answer->number != 0) return 0;
    long count = read_list(recipients, n, found, RECIPIENTS_LIMIT);
    if (count >= 1 && count <= RECIPIENTS_LIMIT) return count;
    *answer = (peer_answer){10, 0};
    return 0;
}

/* The lowest advice decides (A5), and none is lower than disable: whoever stands behind the first is not looked up. */
peer_quick peer_recommend_quick(const uint8_t *table, size_t table_length,
                                const uint8_t *recipients, size_t recipients_length, bool mutual, bool reply) {
    struct book book;
    struct span found[RECIPIENTS_LIMIT];
    peer_answer answer;
    uint32_t least = ENCRYPT, looked_up = 0;
    long count = opened(&book, &answer, table, table_length, recipients, recipients_length, found);

    if (count == 0) return (peer_quick){answer.number, answer.index, REFUSED, 0};
    while (looked_up < count && least != DISABLE) {
        const struct span *one = &found[looked_up++];
        uint32_t advice = advice_for(slot_of(&book, table, recipients + one->at, one->length), mutual, reply);
        if (advice < least) least = advice;
    }
    return (peer_quick){0, 0, least, looked_up};
}

peer_advice peer_recommend(const uint8_t *table, size_t table_length,
                           const uint8_t *recipients, size_t recipients_length, bool mutual, bool reply) {
    peer_quick quick = peer_recommend_quick(table, table_length, recipients, recipients_length, mutual, reply);
    return (peer_advice){quick.number, quick.index, quick.advice};
}

peer_part peer_target_key(const uint8_t *table, size_t table_length,
                          const uint8_t *recipients, size_t recipients_length, bool mutual, bool reply, uint64_t place) {
    struct book book;
    struct span found[RECIPIENTS_LIMIT];
    peer_answer answer;
    long count = opened(&book, &answer, table, table_length, recipients, recipients_length, found);
    (void)mutual;
    (void)reply;

    if (place >= (uint64_t)count) return (peer_part){0, 0};
    const uint8_t *slot = slot_of(&book, table, recipients + found[place].at, found[place].length);
    if (slot == NULL) return (peer_part){0, 0};
    uint64_t start = (uint64_t)(slot - table);
    if (slot[BITS_AT] & DIRECT) return (peer_part){start + DIRECT_AT, load16(slot + DIRECT_LENGTH_AT)};
    if (slot[BITS_AT] & GOSSIP) return (peer_part){start + GOSSIP_AT, load16(slot + GOSSIP_LENGTH_AT)};
    return (peer_part){0, 0};
}
