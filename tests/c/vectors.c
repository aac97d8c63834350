/* vectors FILE: runs the cases of a file, which vectors.py made, through the header.
 *
 * Each block is lent in memory of just its length, so that valgrind sees one octet too far. After the call the answer
 * and the memory that was lent for writing are compared with what the independent program answered, and the borrowed blocks with
 * what they were. */
#include <stdlib.h>

#include "expect.h"
#include "vienghulac.h"

/* A block of a case: its octets in the file, and the copy that is lent. */
typedef struct {
    const uint8_t *octets;
    uint8_t *lent;
    size_t length;
} block;

static const uint8_t *at, *end;

static void give_up(const char *why) {
    printf("vectors: %s\n", why);
    exit(2);
}

static uint64_t number(void) {
    uint64_t value = 0;
    if (end - at < 8) give_up("the file ends inside a case");
    for (int i = 0; i < 8; i++) value |= (uint64_t)*at++ << (8 * i);
    return value;
}

static block lend(void) {
    block b;
    b.length = number();
    if ((uint64_t)(end - at) < b.length) give_up("the file ends inside a case");
    b.octets = at;
    at += b.length;
    b.lent = (uint8_t *)malloc(b.length ? b.length : 1);
    if (!b.lent) give_up("no memory");
    memcpy(b.lent, b.octets, b.length);
    return b;
}

/* Takes a block back: does it hold these octets? */
static bool took_back(block b, const uint8_t *octets) {
    bool same = memcmp(b.lent, octets, b.length) == 0;
    free(b.lent);
    return same;
}

static bool unchanged(block b) { return took_back(b, b.octets); }

static bool now_holds(block b) {
    block expected = lend();
    bool same = expected.length == b.length && memcmp(b.lent, expected.octets, b.length) == 0;
    free(expected.lent);
    free(b.lent);
    return same;
}

static bool check(void) {
    block table = lend();
    vienghulac_answer a = vienghulac_check(table.lent, table.length);
    bool right = a.number == number();
    right &= a.index == number();
    return right & unchanged(table);
}

static bool convert(void) {
    block table = lend();
    vienghulac_answer a = vienghulac_convert(table.lent, table.length);
    bool right = a.number == number();
    right &= a.index == number();
    return right & now_holds(table);
}

static bool process(void) {
    block table = lend(), outer = lend(), payload = lend();
    uint64_t receipt = number(), gossip = number();
    vienghulac_answer a = vienghulac_process(table.lent, table.length, receipt, outer.lent, outer.length,
                                             payload.lent, payload.length, (uint8_t)gossip);
    bool right = a.number == number();
    right &= a.index == number();
    right &= now_holds(table);
    return right & unchanged(outer) & unchanged(payload);
}

static bool recommend(void) {
    block table = lend(), recipients = lend();
    bool mutual = number(), reply = number();
    vienghulac_advice a = vienghulac_recommend(table.lent, table.length, recipients.lent, recipients.length, mutual, reply);
    bool right = a.number == number();
    right &= a.index == number();
    right &= a.advice == number();
    return right & unchanged(table) & unchanged(recipients);
}

static bool recommend_quick(void) {
    block table = lend(), recipients = lend();
    bool mutual = number(), reply = number();
    vienghulac_quick q =
        vienghulac_recommend_quick(table.lent, table.length, recipients.lent, recipients.length, mutual, reply);
    bool right = q.number == number();
    right &= q.index == number();
    right &= q.advice == number();
    right &= q.looked_up == number();
    return right & unchanged(table) & unchanged(recipients);
}

static bool target_key(void) {
    block table = lend(), recipients = lend();
    bool mutual = number(), reply = number();
    uint64_t place = number();
    vienghulac_part part = vienghulac_target_key(table.lent, table.length, recipients.lent, recipients.length, mutual,
                                                 reply, place);
    bool right = part.start == number();
    right &= part.length == number();
    return right & unchanged(table) & unchanged(recipients);
}

static bool entry(void) {
    block table = lend(), numbers = lend();
    uint64_t slot = number();
    vienghulac_answer a = vienghulac_entry(table.lent, table.length, slot, (uint64_t *)numbers.lent, numbers.length / 8);
    bool right = a.number == number();
    right &= a.index == number();
    right &= now_holds(numbers);
    return right & unchanged(table);
}

static bool write_field(bool gossip) {
    block address = lend(), key = lend(), out = lend();
    bool mutual = number();
    vienghulac_written w =
        gossip ? vienghulac_write_gossip(address.lent, address.length, key.lent, key.length, out.lent, out.length)
               : vienghulac_write_autocrypt(address.lent, address.length, key.lent, key.length, mutual, out.lent, out.length);
    bool right = w.number == number();
    right &= w.length == number();
    right &= now_holds(out);
    return right & unchanged(address) & unchanged(key);
}

static bool display(void) {
    block address = lend(), out = lend();
    vienghulac_written w = vienghulac_display(address.lent, address.length, out.lent, out.length);
    bool right = w.number == number();
    right &= w.length == number();
    right &= now_holds(out);
    return right & unchanged(address);
}

static bool lint(void) {
    block outer = lend(), payload = lend(), faults = lend();
    vienghulac_linted l = vienghulac_lint(outer.lent, outer.length, payload.lent, payload.length,
                                          (uint32_t *)faults.lent, faults.length / 4);
    bool right = l.number == number();
    right &= l.count == number();
    right &= now_holds(faults);
    return right & unchanged(outer) & unchanged(payload);
}

static uint8_t *read_file(const char *name, size_t *length) {
    FILE *file = fopen(name, "rb");
    if (!file || fseek(file, 0, SEEK_END) != 0) give_up("the file cannot be read");
    *length = (size_t)ftell(file);
    rewind(file);
    uint8_t *octets = (uint8_t *)malloc(*length + 1);
    if (!octets || fread(octets, 1, *length, file) != *length) give_up("the file cannot be read");
    fclose(file);
    return octets;
}

int main(int count, char **words) {
    size_t length;
    if (count != 2) give_up("one file is wanted");
    uint8_t *octets = read_file(words[1], &length);
    at = octets, end = octets + length;
    while (at < end) {
        switch (number()) {
        case 1: expect("check", check()); break;
        case 2: expect("process", process()); break;
        case 3: expect("recommend", recommend()); break;
        case 4: expect("target_key", target_key()); break;
        case 5: expect("write_autocrypt", write_field(false)); break;
        case 6: expect("write_gossip", write_field(true)); break;
        case 7: expect("entry", entry()); break;
        case 8: expect("convert", convert()); break;
        case 9: expect("display", display()); break;
        case 10: expect("recommend_quick", recommend_quick()); break;
        case 11: expect("lint", lint()); break;
        default: give_up("no such call");
        }
    }
    free(octets);
    return counted();
}
