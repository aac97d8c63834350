#include "table.h"

#include "address.h"

/* T16: by the old rule an address may have capitals beyond ASCII in its local part. By both its domain is in ASCII. */
enum soundness { BROKEN, SOUND_BY_OLD_RULE, SOUND };

static enum soundness soundness(const uint8_t *slot) {
    uint32_t address_length = load16(slot + ADDRESS_LENGTH_AT), bits = slot[BITS_AT];
    uint64_t seen = load64(slot + LAST_SEEN_AT), timestamp = load64(slot + TIMESTAMP_AT);
    uint64_t gossip_timestamp = load64(slot + GOSSIP_TIMESTAMP_AT);
    uint32_t direct_length = load16(slot + DIRECT_LENGTH_AT), gossip_length = load16(slot + GOSSIP_LENGTH_AT);
    struct kinds kinds;

    if ((bits & 0xf0) | slot[5] | slot[6] | slot[7] | slot[36] | slot[37] | slot[38] | slot[39]) return BROKEN;
    if (seen > TIME_LIMIT || timestamp > TIME_LIMIT || gossip_timestamp > TIME_LIMIT) return BROKEN;
    if (!(bits & SEEN) && seen != 0) return BROKEN;
    if (bits & DIRECT) {
        if (direct_length - 1u >= KEY_LIMIT || !(bits & SEEN) || seen < timestamp) return BROKEN;
    } else if ((bits & MUTUAL) || timestamp != 0 || direct_length != 0) {
        return BROKEN;
    }
    if (bits & GOSSIP) {
        if (gossip_length - 1u >= KEY_LIMIT) return BROKEN;
    } else if (gossip_timestamp != 0 || gossip_length != 0) {
        return BROKEN;
    }
    if (address_length > ADDRESS_LIMIT || !plain_address(slot + ADDRESS_AT, address_length, &kinds)
        || (kinds.local | kinds.domain) & CAPITAL || kinds.domain & HIGH
        || !all_zero(slot + ADDRESS_AT + address_length, DIRECT_AT - ADDRESS_AT - address_length)
        || !all_zero(slot + DIRECT_AT + direct_length, KEY_LIMIT - direct_length)
        || !all_zero(slot + GOSSIP_AT + gossip_length, KEY_LIMIT - gossip_length)) return BROKEN;
    return canonical_address(slot + ADDRESS_AT, address_length, &kinds) ? SOUND : SOUND_BY_OLD_RULE;
}

/* The place of the address in the book, or the empty place where it would stand. */
static uint32_t *place_of(struct book *book, const uint8_t *address, size_t n, uint32_t h) {
    uint32_t tag = h & 0xffff0000u;
    for (uint32_t i = h & book->mask;; i = (i + 1) & book->mask) {
        uint32_t *place = &book->place[i];
        if (*place == 0) return place;
        if ((*place & 0xffff0000u) == tag) {
            uint32_t slot = (*place & 0xffffu) - 1;
            if (book->length[slot] == n && memcmp(book->address[slot], address, n) == 0) return place;
        }
    }
}

static void enter(struct book *book, uint32_t *place, uint32_t slot, const uint8_t *address, size_t n, uint32_t h) {
    *place = (h & 0xffff0000u) | (slot + 1);
    book->address[slot] = address;
    book->length[slot] = (uint16_t)n;
}

static void clear(struct book *book) {
    memset(book->place, 0, (book->mask + 1) * sizeof book->place[0]);
}

/* Refuses slots that are less sound than `least`. */
static peer_answer open_by(struct book *book, const uint8_t *table, size_t n, enum soundness least) {
    uint32_t slots = (uint32_t)(n / SLOT), size = 2;
    if (n == 0 || n > (size_t)SLOTS_LIMIT * SLOT || n % SLOT != 0) return (peer_answer){1, 0};
    while (size < 2 * slots) size *= 2;
    book->slots = slots;
    book->mask = size - 1;
    book->next_free = 0;
    book->old_spellings = 0;
    clear(book);
    for (uint32_t i = 0; i < slots; i++) {
        const uint8_t *slot = table + (size_t)i * SLOT;
        if (slot[0] == 0x41 && slot[1] == 0x31) {
            enum soundness found = soundness(slot);
            if (found < least) return (peer_answer){2, i};
            book->is_old[i] = found != SOUND;
            book->old_spellings += found != SOUND;
            size_t length = load16(slot + ADDRESS_LENGTH_AT);
            uint32_t h = hash(slot + ADDRESS_AT, length);
            uint32_t *place = place_of(book, slot + ADDRESS_AT, length, h);
            if (*place != 0) return (peer_answer){2, i};
            enter(book, place, i, slot + ADDRESS_AT, length, h);
        } else {
            if (!all_zero(slot, SLOT)) return (peer_answer){2, i};
            book->address[i] = NULL;
        }
    }
    return (peer_answer){0, 0};
}

peer_answer open_book(struct book *book, const uint8_t *table, size_t n) { return open_by(book, table, n, SOUND); }

long find(const struct book *book, const uint8_t *address, size_t n) {
    uint32_t place = *place_of((struct book *)book, address, n, hash(address, n));
    return (long)(place & 0xffffu) - 1;
}

long find_or_take(struct book *book, const uint8_t *address, size_t n) {
    uint32_t h = hash(address, n);
    uint32_t *place = place_of(book, address, n, h);
    if (*place != 0) return (long)(*place & 0xffffu) - 1;
    while (book->next_free < book->slots && book->address[book->next_free] != NULL) book->next_free++;
    if (book->next_free == book->slots) return -1;
    enter(book, place, book->next_free, address, n, h);
    return (long)book->next_free;
}

peer_answer peer_check(const uint8_t *table, size_t table_length) {
    struct book book;
    return open_book(&book, table, table_length);
}

/* T18: puts what is younger in `from` into the slot, which is lower; of equal dates its own stays. */
static void merge(uint8_t *slot, const uint8_t *from) {
    uint8_t has = slot[BITS_AT], brings = from[BITS_AT];
    if (brings & SEEN && (!(has & SEEN) || load64(from + LAST_SEEN_AT) > load64(slot + LAST_SEEN_AT))) {
        memcpy(slot + LAST_SEEN_AT, from + LAST_SEEN_AT, 8);
    }
    if (brings & DIRECT && (!(has & DIRECT) || load64(from + TIMESTAMP_AT) > load64(slot + TIMESTAMP_AT))) {
        memcpy(slot + TIMESTAMP_AT, from + TIMESTAMP_AT, 8);
        memcpy(slot + DIRECT_LENGTH_AT, from + DIRECT_LENGTH_AT, 2);
        memcpy(slot + DIRECT_AT, from + DIRECT_AT, KEY_LIMIT);
        has = (uint8_t)((has & ~MUTUAL) | (brings & MUTUAL));
    }
    if (brings & GOSSIP
        && (!(has & GOSSIP) || load64(from + GOSSIP_TIMESTAMP_AT) > load64(slot + GOSSIP_TIMESTAMP_AT))) {
        memcpy(slot + GOSSIP_TIMESTAMP_AT, from + GOSSIP_TIMESTAMP_AT, 8);
        memcpy(slot + GOSSIP_LENGTH_AT, from + GOSSIP_LENGTH_AT, 2);
        memcpy(slot + GOSSIP_AT, from + GOSSIP_AT, KEY_LIMIT);
    }
    slot[BITS_AT] = (uint8_t)(has | (brings & (SEEN | DIRECT | GOSSIP)));
}

peer_answer peer_convert(uint8_t *table, size_t table_length) {
    struct book book;
    peer_answer answer = open_by(&book, table, table_length, SOUND_BY_OLD_RULE);
    if (answer.number != 0 || book.old_spellings == 0) return answer;
    clear(&book); /* it is filled again, with the canonical forms */
    for (uint32_t i = 0; i < book.slots; i++) {
        if (book.address[i] == NULL) continue;
        uint8_t *slot = table + (size_t)i * SLOT, *address = slot + ADDRESS_AT;
        size_t length = book.length[i];
        if (book.is_old[i]) make_canonical(address, address, length);
        uint32_t h = hash(address, length), *place = place_of(&book, address, length, h);
        if (*place == 0) {
            enter(&book, place, i, address, length, h);
        } else {
            merge(table + (size_t)((*place & 0xffffu) - 1) * SLOT, slot);
            memset(slot, 0, SLOT);
        }
    }
    return answer;
}
