/* What the two fuzzing programs share: lent memory that ends at a page which nobody may touch, and the input read from
 * its front to its end.
 *
 * A block is put so that its last octet is the last of a page; the page behind it is closed. A read or a write of one
 * octet too many ends the program, in code that is not compiled with the address sanitizer too. */
#include <stdbool.h>
#include <stddef.h>
#include <stdint.h>
#include <stdio.h>
#include <stdlib.h>
#include <string.h>
#include <sys/mman.h>
#include <unistd.h>

/* Room for a block of at most `most` octets, a closed page behind it. */
typedef struct {
    uint8_t *end;
    size_t most;
} room;

static inline room make_room(size_t most) {
    size_t page = (size_t)sysconf(_SC_PAGESIZE), open = (most + page - 1) / page * page;
    uint8_t *at = mmap(NULL, open + page, PROT_READ | PROT_WRITE, MAP_PRIVATE | MAP_ANONYMOUS, -1, 0);
    if (at == MAP_FAILED || mprotect(at + open, page, PROT_NONE) != 0) {
        perror("fuzz: no memory");
        exit(2);
    }
    return (room){at + open, most};
}

/* The octets at the end of the room, as many as there is room for. */
typedef struct {
    uint8_t *at;
    size_t length;
} block;

static inline block lend(room r, const uint8_t *octets, size_t length) {
    if (length > r.most) length = r.most;
    block b = {r.end - length, length};
    if (length) memcpy(b.at, octets, length);
    return b;
}

/* What is left of the input. */
typedef struct {
    const uint8_t *at, *end;
} input;

static inline uint8_t octet(input *in) { return in->at < in->end ? *in->at++ : 0; }

/* Up to the next two octets 254, or to the end: a run that the fuzzer can lengthen and shorten without counting. */
static inline block run(input *in) {
    const uint8_t *from = in->at, *to = from;
    while (to < in->end && !(*to == 254 && to + 1 < in->end && to[1] == 254)) to++;
    in->at = to < in->end ? to + 2 : to;
    return (block){(uint8_t *)from, (size_t)(to - from)};
}

/* Two numbers that must be equal. The fuzzer keeps the input of a program that aborts. */
static inline void same(const char *what, uint64_t library, uint64_t peer) {
    if (library == peer) return;
    fprintf(stderr, "fuzz: %s: the library %llu, the C program %llu\n", what, (unsigned long long)library,
            (unsigned long long)peer);
    abort();
}

/* Two runs of octets that must be equal. */
static inline void same_octets(const char *what, const uint8_t *library, const uint8_t *peer, size_t length) {
    for (size_t i = 0; i < length; i++) {
        if (library[i] == peer[i]) continue;
        fprintf(stderr, "fuzz: %s: octet %zu: the library %u, the C program %u\n", what, i, library[i], peer[i]);
        abort();
    }
}
