/* Messages one after the other, on one small table, given to the library and to the C program of bench/: after each the
 * answers, the whole tables, the advices for a list, its keys, two written fields and an address shown are compared.
 *
 * The input: an octet for the number of slots; then for each message an octet of choices, the outer block, the payload
 * and a list, each ended by two octets 254. seeds.py writes such inputs. */
#include "advice.h"

enum { SLOTS = 4, BLOCK = 65537, TEXT = 4096, PLACES = 3 };

/* Times at which messages come: close to each other, on both sides of 35 days, and on both sides of the limit. */
static const uint64_t moments[16] = {0, 1, 999, 1000, 1001, 3024999, 3025000, 3025001, 1500000000, 1600000000, 1600000001,
                                     1700000000, 4102444800, 253402300798, 253402300799, 253402300800};

static room own, other, outer_room, payload_room, list_room, key_room, field_room, shown_room;

static void compare_process(block mine, block theirs, uint8_t choices, block outer, block payload) {
    uint64_t receipt = moments[choices >> 4];
    uint8_t gossip = choices & 3;
    vienghulac_answer a =
        vienghulac_process(mine.at, mine.length, receipt, outer.at, outer.length, payload.at, payload.length, gossip);
    peer_answer b = peer_process(theirs.at, theirs.length, receipt, outer.at, outer.length, payload.at, payload.length, gossip);
#ifdef SPOILED
    if (b.number == 0) theirs.at[8] ^= 1; /* last seen of the first slot */
#endif
    same("process", a.number, b.number);
    same("index of process", a.index, b.index);
    same_octets("table", mine.at, theirs.at, mine.length);
}

/* The list as an address, the payload's beginning as a key: both fields, into as much room as the choices say. */
static void compare_fields(uint8_t choices, block address, block key) {
    static uint8_t ours[VIENGHULAC_FIELD], theirs[VIENGHULAC_FIELD];
    size_t length = choices & 16 ? VIENGHULAC_FIELD : 64 + choices;
    memset(ours, choices, length);
    memset(theirs, choices, length);
    block out = lend(field_room, ours, length);
    vienghulac_written a = vienghulac_write_autocrypt(address.at, address.length, key.at, key.length, choices & 4, out.at, out.length);
    peer_written b = peer_write_autocrypt(address.at, address.length, key.at, key.length, choices & 4, theirs, length);
    same("write_autocrypt", a.number, b.number);
    same("length of an Autocrypt field", a.length, b.length);
    same_octets("Autocrypt field", out.at, theirs, length);
    a = vienghulac_write_gossip(address.at, address.length, key.at, key.length, out.at, out.length);
    b = peer_write_gossip(address.at, address.length, key.at, key.length, theirs, length);
    same("write_gossip", a.number, b.number);
    same("length of a gossip field", a.length, b.length);
    same_octets("gossip field", out.at, theirs, length);
}

/* The list as an address once more, shown in as much room as there may be need for, in little, or in none. */
static void compare_display(uint8_t choices, block address) {
    static uint8_t ours[VIENGHULAC_DISPLAY], theirs[VIENGHULAC_DISPLAY];
    size_t length = choices & 32 ? VIENGHULAC_DISPLAY : choices & 16 ? choices & 15 : choices >> 2;
    memset(ours, choices, length);
    memset(theirs, choices, length);
    block out = lend(shown_room, ours, length);
    vienghulac_written a = vienghulac_display(address.at, address.length, out.at, out.length);
    peer_written b = peer_display(address.at, address.length, theirs, length);
    same("display", a.number, b.number);
    same("length of an address shown", a.length, b.length);
    same_octets("address shown", out.at, theirs, length);
}

int LLVMFuzzerInitialize(int *count, char ***words) {
    (void)count, (void)words;
    own = make_room(SLOTS * VIENGHULAC_SLOT);
    other = make_room(SLOTS * VIENGHULAC_SLOT);
    outer_room = make_room(BLOCK);
    payload_room = make_room(BLOCK);
    list_room = make_room(TEXT);
    key_room = make_room(TEXT);
    field_room = make_room(VIENGHULAC_FIELD);
    shown_room = make_room(VIENGHULAC_DISPLAY);
    return 0;
}

int LLVMFuzzerTestOneInput(const uint8_t *octets, size_t length) {
    static const uint8_t zeros[SLOTS * VIENGHULAC_SLOT];
    input in = {octets, octets + length};
    size_t slots = 1 + octet(&in) % SLOTS;
    block mine = lend(own, zeros, slots * VIENGHULAC_SLOT), theirs = lend(other, zeros, slots * VIENGHULAC_SLOT);
    while (in.at < in.end) {
        uint8_t choices = octet(&in);
        block outer = run(&in), payload = run(&in), list = run(&in);
        outer = lend(outer_room, outer.at, outer.length);
        block key = lend(key_room, payload.at, payload.length);
        payload = lend(payload_room, payload.at, payload.length);
        list = lend(list_room, list.at, list.length);
        compare_process(mine, theirs, choices, outer, payload);
        compare_advice(mine, list, choices & 4, choices & 8, PLACES);
        compare_fields(choices, list, key);
        compare_display(choices, list);
    }
    return 0;
}
