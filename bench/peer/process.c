#include "address.h"
#include "block.h"
#include "date.h"
#include "keyfield.h"
#include "peer.h"
#include "table.h"

enum {
    OUTER_FIELDS = 1 << FROM | 1 << RECIPIENTS | 1 << DATE | 1 << CONTENT_TYPE | 1 << AUTOCRYPT,
    PAYLOAD_FIELDS = 1 << AUTOCRYPT_GOSSIP,
    LISTED_LIMIT = BLOCK_LIMIT / 4, /* a@b and a comma */
    FORMS_LIMIT = 3 * BLOCK_LIMIT,  /* a dot and a letter of two octets become a dot and seven */
    TAKE = 1
};

/* The canonical addresses of To, Cc and Reply-To by their hash: 0, or an address's number and one. */
struct listed {
    uint32_t mask;
    long count;
    struct span address[LISTED_LIMIT]; /* of the forms */
    uint16_t place[2 * LISTED_LIMIT];
    uint8_t forms[FORMS_LIMIT];
};

static uint16_t *listed_place(struct listed *listed, const uint8_t *address, size_t n) {
    for (uint32_t i = hash(address, n);; i++) {
        uint16_t *place = &listed->place[i & listed->mask];
        if (*place == 0) return place;
        const struct span *other = &listed->address[*place - 1];
        if (other->length == n && memcmp(listed->forms + other->at, address, n) == 0) return place;
    }
}

/* Reads every readable list, and makes the canonical forms of its addresses, one behind the other. */
static void read_listed(struct listed *listed, const struct values *outer) {
    size_t filled = 0;
    listed->count = 0;
    for (uint32_t i = 0; i < outer->count; i++) {
        const struct value *value = &outer->value[i];
        if (value->field != RECIPIENTS) continue;
        struct span *found = listed->address + listed->count;
        long n = read_list(outer->text + value->at, value->length, found, LISTED_LIMIT - listed->count);
        for (long k = 0; k < n; k++) {
            const uint8_t *address = outer->text + value->at + found[k].at;
            found[k] = (struct span){filled, make_canonical(listed->forms + filled, address, found[k].length)};
            filled += found[k].length;
        }
        if (n > 0) listed->count += n;
    }
    uint32_t size = 2;
    while (size < 2 * (uint32_t)listed->count) size *= 2;
    listed->mask = size - 1;
    memset(listed->place, 0, size * sizeof listed->place[0]);
    for (long k = 0; k < listed->count; k++) {
        uint16_t *place = listed_place(listed, listed->forms + listed->address[k].at, listed->address[k].length);
        if (*place == 0) *place = (uint16_t)(k + 1);
    }
}

/* The key that gossip brings a slot; its length is 0 for none. */
struct brought {
    const uint8_t *key;
    size_t length;
};

/* Plans all gossip; false where a newcomer finds no slot. The forms of newcomers stay in `forms`, to which the book points. */
static bool plan_gossip(struct book *book, const struct values *outer, const struct values *payload, struct brought *brought,
                        uint8_t *keys, uint8_t (*forms)[ADDRESS_LIMIT]) {
    struct listed listed;
    read_listed(&listed, outer);
    for (uint32_t i = 0; i < payload->count; i++) {
        struct key_field field;
        if (!part_field(payload->text + payload->value[i].at, payload->value[i].length, &field)) continue;
        uint8_t *address = *forms;
        size_t n = make_canonical(address, field.address, field.address_length);
        if (*listed_place(&listed, address, n) == 0) continue;
        size_t length = decode_key(field.keydata, field.keydata_length, keys);
        if (length == 0) continue;
        long slot = find_or_take(book, address, n);
        if (slot < 0) return false;
        if (book->address[slot] == address) forms++;
        brought[slot] = (struct brought){keys, length};
        keys += length;
    }
    return true;
}

/* Puts a key over an older one, of which no more than its length was not zero. */
static void put_key(uint8_t *slot, size_t length_at, size_t key_at, const uint8_t *key, size_t length) {
    size_t old = load16(slot + length_at);
    memcpy(slot + key_at, key, length);
    if (old > length) memset(slot + key_at + length, 0, old - length);
    store16(slot + length_at, (uint32_t)length);
}

/* A newcomer's slot is free, so it is all zero. */
static void begin(uint8_t *slot, const uint8_t *address, size_t n) {
    slot[0] = 0x41;
    slot[1] = 0x31;
    store16(slot + ADDRESS_LENGTH_AT, (uint32_t)n);
    memcpy(slot + ADDRESS_AT, address, n);
}

static void update_sender(uint8_t *slot, uint64_t date, const uint8_t *key, size_t length, bool mutual) {
    if (slot[BITS_AT] & DIRECT && date < load64(slot + TIMESTAMP_AT)) return;
    if (load64(slot + LAST_SEEN_AT) < date) store64(slot + LAST_SEEN_AT, date);
    slot[BITS_AT] |= SEEN;
    if (length == 0) return;
    store64(slot + TIMESTAMP_AT, date);
    put_key(slot, DIRECT_LENGTH_AT, DIRECT_AT, key, length);
    slot[BITS_AT] = (uint8_t)((slot[BITS_AT] & ~MUTUAL) | DIRECT | (mutual ? MUTUAL : 0));
}

static void update_gossip(uint8_t *slot, uint64_t date, const uint8_t *key, size_t length) {
    if (slot[BITS_AT] & GOSSIP && load64(slot + GOSSIP_TIMESTAMP_AT) > date) return;
    store64(slot + GOSSIP_TIMESTAMP_AT, date);
    put_key(slot, GOSSIP_LENGTH_AT, GOSSIP_AT, key, length);
    slot[BITS_AT] |= GOSSIP;
}

peer_answer peer_process(uint8_t *table, size_t table_length, uint64_t receipt,
                         const uint8_t *outer_block, size_t outer_length,
                         const uint8_t *payload_block, size_t payload_length, uint8_t gossip) {
    struct book book;
    struct values outer, payload;
    peer_answer answer = open_book(&book, table, table_length);
    if (answer.number != 0) return answer;
    if (receipt > TIME_LIMIT) return (peer_answer){3, 0};
    if (!read_block(outer_block, outer_length, OUTER_FIELDS, &outer)) return (peer_answer){4, 0};

    const struct value *from = NULL, *date = NULL;
    uint32_t froms = 0, dates = 0;
    bool report = false;
    for (uint32_t i = 0; i < outer.count; i++) {
        const struct value *value = &outer.value[i];
        if (value->field == FROM) {
            from = value;
            froms++;
        } else if (value->field == DATE) {
            date = value;
            dates++;
        } else if (value->field == CONTENT_TYPE) {
            report |= is_report(outer.text + value->at, value->length);
        }
    }
    struct span only;
    if (froms != 1 || read_list(outer.text + from->at, from->length, &only, 1) != 1) return (peer_answer){5, 0};
    if (report) return (peer_answer){6, 0};
    payload.count = 0;
    if (gossip == TAKE && !read_block(payload_block, payload_length, PAYLOAD_FIELDS, &payload)) return (peer_answer){7, 0};

    uint64_t effective = receipt;
    if (dates == 1) {
        int64_t seconds = read_date(outer.text + date->at, date->length);
        if (seconds >= 0 && (uint64_t)seconds < receipt) effective = (uint64_t)seconds;
    }

    uint8_t sender[ADDRESS_LIMIT];
    size_t sender_length = make_canonical(sender, outer.text + from->at + only.at, only.length);
    uint8_t keys[2][KEY_LIMIT]; /* the counted key, and one that would be the second */
    size_t key_length = 0;
    bool mutual = false;
    for (uint32_t i = 0, valid = 0; i < outer.count && valid < 2; i++) {
        const struct value *value = &outer.value[i];
        struct key_field field;
        uint8_t address[ADDRESS_LIMIT];
        if (value->field != AUTOCRYPT || !part_field(outer.text + value->at, value->length, &field)) continue;
        if (make_canonical(address, field.address, field.address_length) != sender_length) continue;
        if (memcmp(address, sender, sender_length) != 0) continue;
        size_t length = decode_key(field.keydata, field.keydata_length, keys[valid]);
        if (length == 0) continue;
        valid++;
        key_length = valid == 1 ? length : 0;
        mutual = field.mutual;
    }

    long sender_slot = find_or_take(&book, sender, sender_length);
    if (sender_slot < 0) return (peer_answer){8, 0};
    struct brought brought[SLOTS_LIMIT];
    uint8_t gossip_keys[BLOCK_LIMIT / 4 * 3], forms[SLOTS_LIMIT + 1][ADDRESS_LIMIT];
    if (payload.count > 0) {
        memset(brought, 0, book.slots * sizeof brought[0]);
        if (!plan_gossip(&book, &outer, &payload, brought, gossip_keys, forms)) return (peer_answer){8, 0};
    }

    /* nothing is refused from here on */
    for (uint32_t i = 0; i < book.slots; i++) {
        uint8_t *slot = table + (size_t)i * SLOT;
        if (book.address[i] && slot[0] == 0) begin(slot, book.address[i], book.length[i]);
        if ((long)i == sender_slot) update_sender(slot, effective, keys[0], key_length, mutual);
        if (payload.count > 0 && brought[i].length > 0) update_gossip(slot, effective, brought[i].key, brought[i].length);
    }
    return answer;
}
