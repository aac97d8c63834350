/* Tables made of patches, given to the check of the library and to that of the C program of bench/: the answers are
 * compared, and the advices and keys for a list by each table that both take for sound. Before that a copy for each is
 * converted (T16): the answers and the whole tables are compared.
 *
 * The input: an octet for the number of slots, one by which the length is off, then patches: two octets for the place,
 * the lower one first, one for the length, and the octets. seeds.py writes such inputs. */
#include "advice.h"

enum { SLOTS = 4, PLACES = 7 };

static const char list[] =
    "alice@a.example, Bob <bob@b.example>, g: carol@c.example, p=q+r@g.example;, x@y, \xc3\x89VA@f.example, "
    "dora@B\xc3\x9c" "CHER.example";
static const uint8_t *const recipients = (const uint8_t *)list;

static room table_room, own_room, other_room, list_room;

/* Zeros, patched. */
static block patched(input *in) {
    static const uint8_t zeros[SLOTS * VIENGHULAC_SLOT + 1];
    size_t length = octet(in) % (SLOTS + 1) * VIENGHULAC_SLOT;
    uint8_t off = octet(in);
    if (off == 1) length++;
    if (off == 2 && length) length--;
    block table = lend(table_room, zeros, length);
    while (in->at < in->end) {
        size_t place = octet(in);
        place |= (size_t)octet(in) << 8;
        for (uint8_t more = octet(in); more && in->at < in->end; more--, place++) {
            uint8_t x = octet(in);
            if (place < length) table.at[place] = x;
        }
    }
    return table;
}

int LLVMFuzzerInitialize(int *count, char ***words) {
    (void)count, (void)words;
    table_room = make_room(SLOTS * VIENGHULAC_SLOT + 1);
    own_room = make_room(SLOTS * VIENGHULAC_SLOT + 1);
    other_room = make_room(SLOTS * VIENGHULAC_SLOT + 1);
    list_room = make_room(sizeof list);
    return 0;
}

static void compare_convert(block table) {
    block mine = lend(own_room, table.at, table.length), theirs = lend(other_room, table.at, table.length);
    vienghulac_answer a = vienghulac_convert(mine.at, mine.length);
    peer_answer b = peer_convert(theirs.at, theirs.length);
    same("convert", a.number, b.number);
    same("index of convert", a.index, b.index);
    same_octets("converted table", mine.at, theirs.at, mine.length);
}

int LLVMFuzzerTestOneInput(const uint8_t *octets, size_t length) {
    input in = {octets, octets + length};
    block table = patched(&in), asked = lend(list_room, recipients, sizeof list - 1);
    compare_convert(table);
    vienghulac_answer a = vienghulac_check(table.at, table.length);
    peer_answer b = peer_check(table.at, table.length);
#ifdef SPOILED
    if (b.number == 2) b.index++;
#endif
    same("check", a.number, b.number);
    same("index of check", a.index, b.index);
    if (a.number != 0) return 0;
    compare_advice(table, asked, true, false, PLACES);
    return 0;
}
