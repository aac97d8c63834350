/* The stack that calls need (C18), on threads whose stack is just VIENGHULAC_STACK: the longest messages, and the longest
 * arguments of the other calls, are answered as on the stack of the program.
 *
 * The thread's stack is filled with a pattern first, so that what a call has touched shows how much it needs; below it
 * lies memory that no one may touch. In such memory a payload is lent, too: it is read only where gossip is asked for
 * (G2). */
#define _GNU_SOURCE
#include <pthread.h>
#include <stdlib.h>
#include <sys/mman.h>
#include <sys/resource.h>
#include <sys/wait.h>
#include <unistd.h>

#include "expect.h"
#include "vienghulac.h"

enum {
    LONGEST = 65536,  /* octets of a block */
    SHORT = 8192,     /* two blocks that are no longer are read in less room */
    PROCESS = 312000, /* octets of stack, as the header says of vienghulac_process */
    LINT = 240000,    /* of vienghulac_lint */
    OTHERS = 16384,   /* and of every other call */
    GUARD = 1 << 20,
    PATTERN = 0xa5
};

typedef struct {
    uint8_t octets[LONGEST + 1];
    size_t length;
} block;

static void put(block *b, const char *text) {
    size_t length = strlen(text);
    if (sizeof b->octets - b->length < length) exit(2);
    memcpy(b->octets + b->length, text, length);
    b->length += length;
}

static void put_times(block *b, const char *text, size_t times) {
    while (times--) put(b, text);
}

/* The domain of all addresses: in ASCII, or in UTF-8. */
static const char *domain = "x";

/* The address that has a number; each is different. */
static const char *address_of(unsigned number) {
    static char address[16];
    snprintf(address, sizeof address, "%x@%s", number, domain);
    return address;
}

/* And that of the one who sends. */
static void put_sender(block *b) {
    put(b, "s@");
    put(b, domain);
}

/* A comment as deep as one may be. */
static void put_comment(block *b) {
    put_times(b, "(a", 16);
    put_times(b, ")", 16);
}

/* Ends a block at a length, with a field that means nothing. */
static void fill(block *b, size_t length) {
    put(b, "X: ");
    put_times(b, "x", length - 2 - b->length);
    put(b, "\r\n");
}

/* A key of 2,048 octets, as Base64. */
static void put_longest_key(block *b) {
    put_times(b, "Zm9v", 682);
    put(b, "Zm8=");
}

/* A mail that reaches everything: deep comments, a long key, and as many recipients as there is room for. */
static void make_outer(block *b, size_t length) {
    b->length = 0;
    put(b, "From: ");
    put_comment(b);
    put_sender(b);
    put(b, "\r\nDate: 1 Jan 2020 00:00:00 ");
    put_comment(b);
    put(b, "+0000\r\nContent-Type: text/plain\r\nAutocrypt: addr=");
    put_sender(b);
    put(b, "; keydata=");
    put_longest_key(b);
    put(b, "\r\nTo: ");
    put_comment(b);
    put(b, address_of(0));
    for (unsigned number = 1; b->length < length - 40; number++) {
        put(b, ",");
        put(b, address_of(number));
    }
    put(b, "\r\n");
    fill(b, length);
}

/* Gossip about so many of the recipients, over and over, the first with the longest key; or nothing. */
static void make_payload(block *b, size_t length, unsigned many) {
    b->length = 0;
    if (length == 0) return;
    put(b, "Autocrypt-Gossip: addr=");
    put(b, address_of(0));
    put(b, "; keydata=");
    put_longest_key(b);
    put(b, "\r\n");
    for (unsigned number = 1; b->length < length - 60; number++) {
        put(b, "Autocrypt-Gossip: addr=");
        put(b, address_of(number % many));
        put(b, "; keydata=Zm9v\r\n");
    }
    fill(b, length);
}

/* As many recipients as may be asked after at once. */
static void make_recipients(block *b) {
    b->length = 0;
    for (unsigned number = 0; number < 100; number++) {
        if (number) put(b, ",");
        put_comment(b);
        put(b, address_of(number));
    }
}

/* The longest address, of 254 octets, and the longest key. */
static void make_own(block *address, block *key) {
    address->length = key->length = 0;
    put_times(address, "a", 64);
    put(address, "@");
    put_times(address, "x", 63);
    put(address, ".");
    put_times(address, "x", 63);
    put(address, ".");
    put_times(address, "x", 61);
    put_times(key, "k", 2048);
}

/* The longest address of the longest code points, of 873 octets; its form has 254 (L6). */
static void make_longest(block *address) {
    static const size_t most[] = {55, 55, 55, 52};
    address->length = 0;
    for (int i = 0; i < 4; i++) {
        put(address, i ? "." : "a@");
        put_times(address, "\xf4\x8f\xbf\xbf", most[i]);
    }
}

/* What the calls are lent, and what they answer. */
static block outer, payload, recipients, address, key, out;
static uint8_t table[VIENGHULAC_SLOTS * VIENGHULAC_SLOT];
static vienghulac_fault faults[VIENGHULAC_FAULTS];

/* T16: all slots full, and with spellings of one address: eight letters, each a capital where its bit of the index is
 * set. Each slot is younger than those below it, so that its keys are moved. */
static void make_old(void) {
    for (unsigned index = 0; index < VIENGHULAC_SLOTS; index++) {
        uint8_t *slot = table + index * VIENGHULAC_SLOT;
        memset(slot, 0, 40 + 256);
        memset(slot + 40 + 256, (int)index, 2 * 2048);
        memcpy(slot, "A1", 2);
        slot[2] = 8 * 2 + 2;
        slot[4] = VIENGHULAC_BIT_LAST_SEEN | VIENGHULAC_BIT_DIRECT | VIENGHULAC_BIT_GOSSIP;
        slot[8] = slot[16] = slot[24] = (uint8_t)index;
        slot[33] = slot[35] = 2048 >> 8;
        for (unsigned letter = 0; letter < 8; letter++) {
            slot[40 + 2 * letter] = 0xc3;
            slot[41 + 2 * letter] = (uint8_t)((index >> letter & 1 ? 0x80 : 0xa0) + letter);
        }
        memcpy(slot + 56, "@x", 2);
    }
}

typedef struct {
    uint64_t numbers[4];
} answer;

static answer process(void) {
    vienghulac_answer a = vienghulac_process(table, sizeof table, 1600000000, outer.octets, outer.length, payload.octets,
                                             payload.length, VIENGHULAC_GOSSIP_TAKE);
    return (answer){{a.number, a.index, 0}};
}

static answer check(void) {
    vienghulac_answer a = vienghulac_check(table, sizeof table);
    return (answer){{a.number, a.index, 0}};
}

static answer convert(void) {
    vienghulac_answer a = vienghulac_convert(table, sizeof table);
    return (answer){{a.number, a.index, 0}};
}

static answer recommend(void) {
    vienghulac_advice a = vienghulac_recommend(table, sizeof table, recipients.octets, recipients.length, true, false);
    return (answer){{a.number, a.index, a.advice}};
}

static answer recommend_quick(void) {
    vienghulac_quick q = vienghulac_recommend_quick(table, sizeof table, recipients.octets, recipients.length, true, false);
    return (answer){{q.number, q.index, q.advice, q.looked_up}};
}

static answer target_key(void) {
    vienghulac_part p = vienghulac_target_key(table, sizeof table, recipients.octets, recipients.length, true, false, 99);
    return (answer){{p.length, p.start, 0}};
}

static answer entry(void) {
    vienghulac_numbers n;
    vienghulac_answer a = vienghulac_entry(table, sizeof table, 0, &n.used, VIENGHULAC_NUMBERS);
    return (answer){{a.number, n.used, n.direct_length}};
}

static answer write_autocrypt(void) {
    vienghulac_written w = vienghulac_write_autocrypt(address.octets, address.length, key.octets, key.length, true,
                                                      out.octets, out.length);
    return (answer){{w.number, w.length, 0}};
}

static answer write_gossip(void) {
    vienghulac_written w =
        vienghulac_write_gossip(address.octets, address.length, key.octets, key.length, out.octets, out.length);
    return (answer){{w.number, w.length, 0}};
}

static answer display(void) {
    vienghulac_written w = vienghulac_display(address.octets, address.length, out.octets, VIENGHULAC_DISPLAY);
    return (answer){{w.number, w.length, 0}};
}

static answer lint(void) {
    vienghulac_linted l = vienghulac_lint(outer.octets, outer.length, payload.octets, payload.length, &faults[0].block,
                                          3 * VIENGHULAC_FAULTS);
    return (answer){{l.number, l.count, 0}};
}

/* A call on a thread: its answer, and how much of the thread's stack it touched. */
typedef struct {
    answer (*call)(void);
    answer answer;
    const uint8_t *begin;
    size_t touched;
} errand;

static void *run(void *of) {
    errand *e = (errand *)of;
    e->begin = (const uint8_t *)__builtin_frame_address(0);
    e->answer = e->call();
    return NULL;
}

static errand on_a_thread(answer (*call)(void), size_t size) {
    errand e = {.call = call};
    uint8_t *memory = (uint8_t *)mmap(NULL, GUARD + size, PROT_NONE, MAP_PRIVATE | MAP_ANONYMOUS, -1, 0), *stack = memory + GUARD;
    pthread_attr_t attributes;
    pthread_t thread;
    if (memory == MAP_FAILED || mprotect(stack, size, PROT_READ | PROT_WRITE) != 0) exit(2);
    memset(stack, PATTERN, size);
    if (pthread_attr_init(&attributes) != 0 || pthread_attr_setstack(&attributes, stack, size) != 0) exit(2);
    if (pthread_create(&thread, &attributes, run, &e) != 0 || pthread_join(thread, NULL) != 0) exit(2);
    const uint8_t *lowest = stack;
    while (*lowest == PATTERN) lowest++;
    e.touched = (size_t)(e.begin - lowest);
    munmap(memory, GUARD + size);
    return e;
}

/* Does the call answer this number first, on a thread as it does here, and leave the same in lent memory, needing at most so
 * much stack? */
static void same(const char *what, answer (*call)(void), uint64_t first, size_t most) {
    static uint8_t table_before[sizeof table], table_after[sizeof table];
    static block out_before, out_after;
    static vienghulac_fault faults_after[VIENGHULAC_FAULTS];
    memcpy(table_before, table, sizeof table);
    out_before = out;
    memset(faults, PATTERN, sizeof faults);
    answer here = call();
    memcpy(table_after, table, sizeof table);
    out_after = out;
    memcpy(faults_after, faults, sizeof faults);
    memcpy(table, table_before, sizeof table);
    out = out_before;
    memset(faults, PATTERN, sizeof faults);
    errand there = on_a_thread(call, VIENGHULAC_STACK);
    printf("%-52s %6zu octets of stack\n", what, there.touched);
    expect("its answer", here.numbers[0] == first && memcmp(&here, &there.answer, sizeof here) == 0);
    expect("the memory behind it",
           memcmp(table, table_after, sizeof table) == 0 && memcmp(&out, &out_after, sizeof out) == 0 &&
           memcmp(faults, faults_after, sizeof faults) == 0);
    expect("the stack it needs", there.touched <= most);
}

/* A mail with blocks of these lengths and gossip about so many of its recipients, for a new table. */
static void processes(const char *what, size_t outer_length, size_t payload_length, unsigned many, uint64_t number) {
    make_outer(&outer, outer_length);
    make_payload(&payload, payload_length, many);
    memset(table, 0, sizeof table);
    same(what, process, number, PROCESS);
}

/* The same mail looked over: gossip about so many addresses, of whom the last may be none of its recipients. */
static void lints(const char *what, size_t outer_length, size_t payload_length, unsigned many, uint64_t number) {
    make_outer(&outer, outer_length);
    make_payload(&payload, payload_length, many);
    same(what, lint, number, LINT);
}

/* The fewest octets for each fault: both blocks full of them (O11). */
static void make_faulty(void) {
    outer.length = payload.length = 0;
    put(&outer, "From:a@b\n");
    put_times(&outer, "Autocrypt:x=\n", (LONGEST - outer.length) / 13);
    put_times(&payload, "Autocrypt-Gossip:x=\n", LONGEST / 20);
}

/* Mail as processing has it, which has no fault, with recipients who are not listed, and with nothing but faults. */
static void look_over(void) {
    lints("lint: both blocks short", SHORT, SHORT, 100, 0);
    lints("lint: a long outer block, no payload", LONGEST, 0, 0, 0);
    expect("no faults", lint().numbers[1] == 0);
    lints("lint: an outer block that is too long", LONGEST + 1, LONGEST, 100, 4);
    lints("lint: a payload that is too long", LONGEST, LONGEST + 1, 100, 7);
    lints("lint: both blocks long", LONGEST, LONGEST, 250, 0);
    expect("no faults in long blocks", lint().numbers[1] == 0);
    lints("lint: a short outer block, a long payload", SHORT, LONGEST, 2000, 0);
    expect("gossip about others", lint().numbers[1] > 100 && faults[0].kind == VIENGHULAC_FAULT_GOSSIP_UNLISTED);
    make_faulty();
    same("lint: both blocks full of faults", lint, 0, LINT);
    expect("all of them", lint().numbers[1] == 24949 && faults[24948].place == LONGEST / 20);
}

/* Does the call end its program on a stack of this size? */
static bool ends(answer (*call)(void), size_t size) {
    int status;
    const struct rlimit no_file = {0, 0};
    pid_t child = fork();
    if (child == 0) {
        setrlimit(RLIMIT_CORE, &no_file);
        on_a_thread(call, size);
        _exit(0);
    }
    return child > 0 && waitpid(child, &status, 0) == child && WIFSIGNALED(status);
}

/* A mail with a payload that no one may touch. */
static const uint8_t *closed;
static uint8_t setting;

static answer process_closed(void) {
    vienghulac_answer a =
        vienghulac_process(table, sizeof table, 1600000000, outer.octets, outer.length, closed, LONGEST, setting);
    return (answer){{a.number, a.index, 0}};
}

static void lend_closed(void) {
    const uint8_t settings[] = {VIENGHULAC_GOSSIP_UNSET, VIENGHULAC_GOSSIP_TAKE, VIENGHULAC_GOSSIP_SKIP, 3, 255};
    closed = (const uint8_t *)mmap(NULL, LONGEST, PROT_NONE, MAP_PRIVATE | MAP_ANONYMOUS, -1, 0);
    if (closed == MAP_FAILED) exit(2);
    make_outer(&outer, SHORT);
    memset(table, 0, sizeof table);
    for (int i = 0; i < 5; i++) {
        setting = settings[i];
        bool touched = ends(process_closed, VIENGHULAC_STACK);
        expect("only a payload that is asked for is read", touched == (setting == VIENGHULAC_GOSSIP_TAKE));
    }
}

/* Domains in UTF-8: the calls that bring addresses into form, and the one that shows them. */
static void in_another_script(void) {
    static const char name[] = "Autocrypt-Gossip: addr=";
    domain = "\xc3\xa9";
    processes("process: both blocks long, domains in UTF-8", LONGEST, LONGEST, 250, 0);
    make_recipients(&recipients);
    same("recommend: domains in UTF-8", recommend, 0, OTHERS);
    same("recommend_quick: domains in UTF-8", recommend_quick, 0, OTHERS);
    same("target_key: domains in UTF-8", target_key, 3, OTHERS);
    make_longest(&address);
    expect("the longest address", address.length == 873);
    same("write_autocrypt: an address of 873 octets", write_autocrypt, 0, OTHERS);
    same("write_gossip: an address of 873 octets", write_gossip, 0, OTHERS);
    memcpy(address.octets, out.octets + sizeof name - 1, address.length = 254);
    expect("its form stands in the field", memcmp(out.octets, name, sizeof name - 1) == 0 && out.octets[sizeof name + 253] == ';');
    same("display: an address of 254 octets", display, 0, OTHERS);
    expect("what is shown", display().numbers[1] == 873);
    make_longest(&address);
    lints("lint: both blocks long, domains in UTF-8", LONGEST, LONGEST, 2000, 0);
    same("display: an address of 873 octets", display, 0, OTHERS);
    expect("the same", display().numbers[1] == 873 && memcmp(out.octets, address.octets, 873) == 0);
    domain = "x";
}

int main(void) {
    processes("process: both blocks short", SHORT, SHORT, 100, 0);
    processes("process: a long outer block, no payload", LONGEST, 0, 0, 0);
    processes("process: a long outer block, a short payload", LONGEST, SHORT, 100, 0);
    processes("process: a short outer block, a long payload", SHORT, LONGEST, 100, 0);
    processes("process: an outer block that is too long", LONGEST + 1, LONGEST, 100, 4);
    processes("process: a payload that is too long", LONGEST, LONGEST + 1, 100, 7);
    processes("process: more newcomers than slots", LONGEST, LONGEST, 300, 8);
    processes("process: both blocks long", LONGEST, LONGEST, 250, 0);
    expect("the buffers alone are not enough", ends(process, 3 * LONGEST));
    look_over();
    expect("nor for a mail that is looked over", ends(lint, 2 * LONGEST));

    make_recipients(&recipients);
    make_own(&address, &key);
    out.length = VIENGHULAC_FIELD;
    same("check", check, 0, OTHERS);
    same("recommend", recommend, 0, OTHERS);
    same("recommend_quick", recommend_quick, 0, OTHERS);
    expect("all recipients are looked up", recommend_quick().numbers[3] == 100);
    same("target_key", target_key, 3, OTHERS);
    same("entry", entry, 0, OTHERS);
    same("write_autocrypt", write_autocrypt, 0, OTHERS);
    same("write_gossip", write_gossip, 0, OTHERS);
    in_another_script();
    make_old();
    same("convert", convert, 0, OTHERS);
    expect("one entry is left", table[0] == 'A' && table[VIENGHULAC_SLOT] == 0 && check().numbers[0] == 0);
    lend_closed();
    return counted();
}
