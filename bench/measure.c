/* measure FOLDER [--smoke | --count | PASSES]: runs the cases that messages.py wrote into FOLDER.
 *
 * First every case is run once by each library, and answers, tables and fields have to be equal; a difference ends it with
 * status 1. Then each pass measures every case with every program that takes it, one after the other, so that a
 * disturbance of the machine meets them alike, and the best pass is printed: case, program, nanoseconds of CPU time a call.
 * A program that is not there (a call that the library does not have yet, GMime) is named on standard error.
 *
 * With --smoke nothing is measured and the counts are printed. With --count each case but the hostile ones, which take
 * long there, is run once by count_round, and callgrind, below which the program then has to run, counts its instructions; the
 * order of the cases is printed. */
#define _POSIX_C_SOURCE 200809L
#include <dlfcn.h>
#include <stdio.h>
#include <stdlib.h>
#include <string.h>
#include <time.h>
#include <valgrind/callgrind.h>

#include "peer/peer.h"
#include "../include/vienghulac.h"
#ifdef WITH_GMIME
#include "gmime.h"
#endif

enum { FIELD_ROOM = 4096, CASES_LIMIT = 256, UNSET = 0, TAKE = 1 };

static const uint64_t receipt = 1700000000; /* also in messages.py */
static const double window_seconds = 0.003; /* at least so long is one measurement */

/* Memory */

static void *reserve(size_t n) {
    void *memory = aligned_alloc(64, (n + 127) / 64 * 64);
    if (memory == NULL) exit(2);
    return memory;
}

struct text {
    uint8_t *s;
    size_t n;
};

/* The programs */

struct library {
    const char *name, *file, *prefix;
    peer_answer (*check)(const uint8_t *, size_t);
    peer_answer (*convert)(uint8_t *, size_t);
    peer_answer (*process)(uint8_t *, size_t, uint64_t, const uint8_t *, size_t, const uint8_t *, size_t, uint8_t);
    peer_advice (*recommend)(const uint8_t *, size_t, const uint8_t *, size_t, bool, bool);
    peer_quick (*recommend_quick)(const uint8_t *, size_t, const uint8_t *, size_t, bool, bool);
    peer_part (*target_key)(const uint8_t *, size_t, const uint8_t *, size_t, bool, bool, uint64_t);
    peer_written (*write_autocrypt)(const uint8_t *, size_t, const uint8_t *, size_t, bool, uint8_t *, size_t);
    vienghulac_linted (*lint)(const uint8_t *, size_t, const uint8_t *, size_t, uint32_t *, size_t); /* ours alone */
};

static struct library libraries[] = {
    {.name = "ours", .file = "build/libvienghulac.so", .prefix = "vienghulac_"},
    {.name = "peer", .file = "build/bench/libpeer.so", .prefix = "peer_"},
    {.name = "peer3", .file = "build/bench/libpeer3.so", .prefix = "peer_"},
};
enum { LIBRARIES = sizeof libraries / sizeof libraries[0] };

static void load_one(void *opened, const struct library *library, const char *call, void *function) {
    char name[64];
    snprintf(name, sizeof name, "%s%s", library->prefix, call);
    void *found = dlsym(opened, name);
    if (found == NULL) fprintf(stderr, "%s: no %s, its rows are left out\n", library->file, name);
    memcpy(function, &found, sizeof found);
}

static void load(struct library *library) {
    void *opened = dlopen(library->file, RTLD_NOW | RTLD_LOCAL);
    if (opened == NULL) {
        fprintf(stderr, "%s\n", dlerror());
        exit(2);
    }
    load_one(opened, library, "check", &library->check);
    load_one(opened, library, "convert", &library->convert);
    load_one(opened, library, "process", &library->process);
    load_one(opened, library, "recommend", &library->recommend);
    load_one(opened, library, "recommend_quick", &library->recommend_quick);
    load_one(opened, library, "target_key", &library->target_key);
    load_one(opened, library, "write_autocrypt", &library->write_autocrypt);
    if (library == libraries) load_one(opened, library, "lint", &library->lint);
}

/* The cases */

struct call {
    struct text first, second;
};

struct one_case {
    char name[64], kind[16], programs[64];
    struct text table; /* as it is at first */
    uint32_t count;
    struct call *calls;
};

static struct one_case cases[CASES_LIMIT];
static int case_count;

static uint32_t take_number(FILE *file) {
    uint8_t s[4];
    if (fread(s, 1, 4, file) != 4) exit(2);
    return (uint32_t)s[0] | (uint32_t)s[1] << 8 | (uint32_t)s[2] << 16 | (uint32_t)s[3] << 24;
}

static struct text take_text(FILE *file) {
    size_t n = take_number(file);
    struct text text = {reserve(n), n};
    if (fread(text.s, 1, n, file) != n) exit(2);
    return text;
}

static void take_cases(const char *folder) {
    char path[512], line[512];
    snprintf(path, sizeof path, "%s/cases.tsv", folder);
    FILE *list = fopen(path, "r");
    if (list == NULL) exit(2);
    while (fgets(line, sizeof line, list)) {
        if (case_count == CASES_LIMIT) exit(2);
        struct one_case *one = &cases[case_count++];
        if (sscanf(line, "%63s %15s %63s", one->name, one->kind, one->programs) != 3) exit(2);
        snprintf(path, sizeof path, "%s/%s", folder, one->name);
        FILE *file = fopen(path, "rb");
        if (file == NULL) exit(2);
        one->table = take_text(file);
        one->count = take_number(file);
        one->calls = reserve(one->count * sizeof one->calls[0]);
        for (uint32_t i = 0; i < one->count; i++) {
            one->calls[i].first = take_text(file);
            one->calls[i].second = take_text(file);
        }
        fclose(file);
    }
    fclose(list);
}

static bool takes(const struct one_case *one, const char *program) {
    const char *at = one->programs;
    size_t n = strlen(program);
    for (;;) {
        if (strncmp(at, program, n) == 0 && (at[n] == ',' || at[n] == 0)) return true;
        at = strchr(at, ',');
        if (at == NULL) return false;
        at++;
    }
}

static bool is_unset(const struct one_case *one) { return strcmp(one->kind, "process-unset") == 0; }

static bool processes(const struct one_case *one) { return strcmp(one->kind, "process") == 0 || is_unset(one); }

/* Is a call's work done once it was made? The table then has to be put back before the next one. */
static bool is_spent(const struct one_case *one) { return strcmp(one->kind, "convert-old") == 0; }

static bool converts(const struct one_case *one) { return strcmp(one->kind, "convert") == 0 || is_spent(one); }

/* What the calls of a case say about gossip. */
static uint8_t setting_of(const struct one_case *one) { return is_unset(one) ? UNSET : TAKE; }

/* One round of a case: all its calls, by one program. What the calls answer goes into `sink`, so that nothing is left out by
 * the compiler. */

static volatile uint64_t sink;
static uint8_t *copied;

typedef void round_of(const struct one_case *, const struct library *, uint8_t *table);

static void round_process(const struct one_case *one, const struct library *library, uint8_t *table) {
    uint8_t setting = setting_of(one);
    for (uint32_t i = 0; i < one->count; i++) {
        const struct call *call = &one->calls[i];
        sink += library->process(table, one->table.n, receipt, call->first.s, call->first.n, call->second.s, call->second.n,
                                 setting).number;
    }
}

static void round_recommend(const struct one_case *one, const struct library *library, uint8_t *table) {
    for (uint32_t i = 0; i < one->count; i++) {
        const struct call *call = &one->calls[i];
        sink += library->recommend(table, one->table.n, call->first.s, call->first.n, true, false).advice;
    }
}

static void round_quick(const struct one_case *one, const struct library *library, uint8_t *table) {
    for (uint32_t i = 0; i < one->count; i++) {
        const struct call *call = &one->calls[i];
        sink += library->recommend_quick(table, one->table.n, call->first.s, call->first.n, true, false).looked_up;
    }
}

static void round_target(const struct one_case *one, const struct library *library, uint8_t *table) {
    for (uint32_t i = 0; i < one->count; i++) {
        const struct call *call = &one->calls[i];
        sink += library->target_key(table, one->table.n, call->first.s, call->first.n, true, false, 0).length;
    }
}

static void round_check(const struct one_case *one, const struct library *library, uint8_t *table) {
    sink += library->check(table, one->table.n).number;
}

static void round_convert(const struct one_case *one, const struct library *library, uint8_t *table) {
    sink += library->convert(table, one->table.n).number;
}

static void round_write(const struct one_case *one, const struct library *library, uint8_t *table) {
    for (uint32_t i = 0; i < one->count; i++) {
        const struct call *call = &one->calls[i];
        sink += library->write_autocrypt(call->first.s, call->first.n, call->second.s, call->second.n, true, table,
                                         FIELD_ROOM).length;
    }
}

static vienghulac_fault faults[VIENGHULAC_FAULTS];

static vienghulac_linted lint(const struct library *library, const struct call *call) {
    return library->lint(call->first.s, call->first.n, call->second.s, call->second.n, &faults[0].block,
                         3 * VIENGHULAC_FAULTS);
}

static void round_lint(const struct one_case *one, const struct library *library, uint8_t *table) {
    (void)table;
    for (uint32_t i = 0; i < one->count; i++) sink += lint(library, &one->calls[i]).count;
}

static void round_memcpy(const struct one_case *one, const struct library *library, uint8_t *table) {
    (void)library;
    (void)table;
    for (uint32_t i = 0; i < one->count; i++) {
        const struct call *call = &one->calls[i];
        memcpy(copied, call->first.s, call->first.n);
        memcpy(copied + call->first.n, call->second.s, call->second.n);
        sink += copied[0];
    }
}

/* Every octet of the table once, as a loop that compiles to vector instructions. */
static void round_read(const struct one_case *one, const struct library *library, uint8_t *table) {
    uint8_t all = 0;
    (void)library;
    for (size_t i = 0; i < one->table.n; i++) all |= table[i];
    sink += all;
}

#ifdef WITH_GMIME
static void round_gmime(const struct one_case *one, const struct library *library, uint8_t *table) {
    (void)library;
    (void)table;
    for (uint32_t i = 0; i < one->count; i++) sink += gmime_read(one->calls[i].first.s, one->calls[i].first.n);
}
#endif

/* The rows: a case and a program. */

struct row {
    const struct one_case *one;
    const struct library *library;
    const char *program;
    round_of *round;
    uint8_t *table; /* this row's own */
    long rounds;    /* that fill a window */
    double best;
};

static struct row rows[CASES_LIMIT * 5];
static int row_count;

static void add_row(const struct one_case *one, const struct library *library, const char *program, round_of *round) {
    struct row *row = &rows[row_count++];
    size_t room = one->table.n > FIELD_ROOM ? one->table.n : FIELD_ROOM;
    *row = (struct row){one, library, program, round, reserve(room), 1, -1};
    memset(row->table, 0, room);
    memcpy(row->table, one->table.s, one->table.n);
}

/* The round of a call, where the library has it. */
static round_of *round_by(const struct one_case *one, const struct library *library) {
    if (processes(one)) return library->process ? round_process : NULL;
    if (strcmp(one->kind, "recommend") == 0) return library->recommend ? round_recommend : NULL;
    if (strcmp(one->kind, "quick") == 0) return library->recommend_quick ? round_quick : NULL;
    if (strcmp(one->kind, "target") == 0) return library->target_key ? round_target : NULL;
    if (strcmp(one->kind, "check") == 0) return library->check ? round_check : NULL;
    if (converts(one)) return library->convert ? round_convert : NULL;
    if (strcmp(one->kind, "write") == 0) return library->write_autocrypt ? round_write : NULL;
    if (strcmp(one->kind, "lint") == 0) return library->lint ? round_lint : NULL;
    exit(2);
}

static void make_rows(void) {
    size_t longest = 0;
    for (int i = 0; i < case_count; i++) {
        const struct one_case *one = &cases[i];
        for (int k = 0; k < LIBRARIES; k++) {
            round_of *round = round_by(one, &libraries[k]);
            if (round != NULL && takes(one, libraries[k].name)) add_row(one, &libraries[k], libraries[k].name, round);
        }
#ifdef WITH_GMIME
        if (takes(one, "gmime")) add_row(one, NULL, "gmime", round_gmime);
#endif
        if (takes(one, "memcpy")) add_row(one, NULL, "memcpy", round_memcpy);
        if (takes(one, "read")) add_row(one, NULL, "read", round_read);
        for (uint32_t k = 0; k < one->count; k++) {
            size_t n = one->calls[k].first.n + one->calls[k].second.n;
            if (n > longest) longest = n;
        }
    }
    copied = reserve(longest);
}

/* The comparison */

static int passed, failed;

static void expect(bool right, const struct one_case *one, const char *what) {
    if (right) {
        passed++;
    } else {
        failed++;
        printf("%s: %s\n", one->name, what);
    }
}

static bool same_table(const struct text *a, const struct text *b) { return a->n == b->n && memcmp(a->s, b->s, a->n) == 0; }

/* Do two libraries find the same key for the first recipient? */
static bool same_target(const struct library *a, const struct library *b, const struct text *table, size_t n,
                        const struct text *recipients) {
    peer_part x = a->target_key(table->s, n, recipients->s, recipients->n, true, false, 0);
    peer_part y = b->target_key(table->s, n, recipients->s, recipients->n, true, false, 0);
    return x.start == y.start && x.length == y.length;
}

/* Do two libraries answer the same to every call of a case, and leave the same behind? */
static bool agree(const struct one_case *one, const struct library *a, const struct library *b) {
    bool same = true;
    struct text left = {reserve(one->table.n + FIELD_ROOM), one->table.n + FIELD_ROOM};
    struct text right = {reserve(left.n), left.n};
    size_t n = one->table.n;
    memset(left.s, 0, left.n);
    memcpy(left.s, one->table.s, n);
    memcpy(right.s, left.s, left.n);
    for (uint32_t i = 0; i < one->count && same; i++) {
        const struct text *first = &one->calls[i].first, *second = &one->calls[i].second;
        if (processes(one)) {
            uint8_t setting = setting_of(one);
            peer_answer x = a->process(left.s, n, receipt, first->s, first->n, second->s, second->n, setting);
            peer_answer y = b->process(right.s, n, receipt, first->s, first->n, second->s, second->n, setting);
            same = x.number == y.number && x.index == y.index;
        } else if (strcmp(one->kind, "recommend") == 0) {
            peer_advice x = a->recommend(left.s, n, first->s, first->n, true, false);
            peer_advice y = b->recommend(right.s, n, first->s, first->n, true, false);
            same = x.number == y.number && x.index == y.index && x.advice == y.advice;
            if (a->target_key && b->target_key) same = same && same_target(a, b, &left, n, first);
        } else if (strcmp(one->kind, "quick") == 0) {
            peer_quick x = a->recommend_quick(left.s, n, first->s, first->n, true, false);
            peer_quick y = b->recommend_quick(right.s, n, first->s, first->n, true, false);
            same = memcmp(&x, &y, sizeof x) == 0;
        } else if (strcmp(one->kind, "target") == 0) {
            same = same_target(a, b, &left, n, first);
        } else if (strcmp(one->kind, "check") == 0) {
            peer_answer x = a->check(left.s, n), y = b->check(right.s, n);
            same = x.number == y.number && x.index == y.index;
        } else if (converts(one)) {
            peer_answer x = a->convert(left.s, n), y = b->convert(right.s, n);
            same = x.number == y.number && x.index == y.index;
        } else {
            peer_written x = a->write_autocrypt(first->s, first->n, second->s, second->n, true, left.s, FIELD_ROOM);
            peer_written y = b->write_autocrypt(first->s, first->n, second->s, second->n, true, right.s, FIELD_ROOM);
            same = x.number == y.number && x.length == y.length;
        }
        same = same && same_table(&left, &right);
    }
    free(left.s);
    free(right.s);
    return same;
}

static void compare_all(void) {
    for (int i = 0; i < case_count; i++) {
        const struct one_case *one = &cases[i];
        for (int k = 1; k < LIBRARIES; k++) {
            if (round_by(one, &libraries[0]) && round_by(one, &libraries[k])) {
                expect(agree(one, &libraries[0], &libraries[k]), one, "the library and the C peer differ");
            }
        }
    }
}

/* Are all mails of a case looked over without a refusal, with as many faults each as its row says? */
static bool lints_right(const struct row *row) {
    bool right = true, faulty = strncmp(row->one->name, "lint-faulty.", 12) == 0;
    for (uint32_t i = 0; i < row->one->count; i++) {
        vienghulac_linted l = lint(row->library, &row->one->calls[i]);
        right = right && l.number == 0 && l.count == (faulty ? 2u : 0u);
    }
    return right;
}

/* Every program once. A conversion changes a table where there is something to do, and there alone; a mail has the faults
 * that it was given; GMime has to find the keys, and no keys where there are none. */
static void smoke(void) {
    for (int i = 0; i < row_count; i++) {
        const struct row *row = &rows[i];
        row->round(row->one, row->library, row->table);
        bool changed = memcmp(row->table, row->one->table.s, row->one->table.n) != 0;
        expect(row->round != round_convert || changed == is_spent(row->one), row->one, row->program);
        if (row->round == round_lint) expect(lints_right(row), row->one, "other faults than it was given");
    }
#ifdef WITH_GMIME
    for (int i = 0; i < case_count; i++) {
        bool with_key = strncmp(cases[i].name, "key.", 4) == 0, right = true;
        if (!with_key && strncmp(cases[i].name, "keyless.", 8) != 0) continue;
        for (uint32_t k = 0; k < cases[i].count; k++) {
            size_t n = gmime_read(cases[i].calls[k].first.s, cases[i].calls[k].first.n);
            right = right && n != GMIME_UNREAD && (n > 0) == with_key;
        }
        expect(right, &cases[i], "GMime does not find the key");
    }
#endif
}

/* The measurement */

static double now(void) {
    struct timespec t;
    clock_gettime(CLOCK_PROCESS_CPUTIME_ID, &t);
    return (double)t.tv_sec + (double)t.tv_nsec * 1e-9;
}

static void put_back(const struct row *row) { memcpy(row->table, row->one->table.s, row->one->table.n); }

/* Seconds that all rounds of a window take. Where the table is put back before each, that is not counted. */
static double seconds(const struct row *row) {
    double began = now(), took = 0;
    if (!is_spent(row->one)) {
        for (long i = 0; i < row->rounds; i++) row->round(row->one, row->library, row->table);
        return now() - began;
    }
    for (long i = 0; i < row->rounds; i++) {
        put_back(row);
        began = now();
        row->round(row->one, row->library, row->table);
        took += now() - began;
    }
    return took;
}

/* Nanoseconds a call, over a window that is long enough; how many rounds that takes is remembered for the next pass. */
static double window(struct row *row) {
    row->round(row->one, row->library, row->table);
    for (;;) {
        double took = seconds(row);
        if (took >= window_seconds) return took * 1e9 / (double)row->rounds / (double)row->one->count;
        row->rounds = took < window_seconds / 16 ? row->rounds * 8 : row->rounds * 2;
    }
}

static void measure(int passes) {
    for (int pass = 0; pass < passes; pass++) {
        for (int i = 0; i < row_count; i++) {
            double took = window(&rows[i]);
            if (rows[i].best < 0 || took < rows[i].best) rows[i].best = took;
        }
    }
    for (int i = 0; i < row_count; i++) printf("%s\t%s\t%.1f\n", rows[i].one->name, rows[i].program, rows[i].best);
}

/* Callgrind is told itself where to count: that it sees where a function ends cannot be relied on on every machine. */
static void count_round(const struct row *row) {
    CALLGRIND_TOGGLE_COLLECT;
    row->round(row->one, row->library, row->table);
    CALLGRIND_TOGGLE_COLLECT;
    CALLGRIND_DUMP_STATS;
}

static void count(void) {
    for (int i = 0; i < row_count; i++) {
        if (strncmp(rows[i].one->name, "hostile", 7) == 0) continue;
        rows[i].round(rows[i].one, rows[i].library, rows[i].table);
        if (is_spent(rows[i].one)) put_back(&rows[i]);
        count_round(&rows[i]);
        printf("%s\t%s\t%u\n", rows[i].one->name, rows[i].program, (unsigned)rows[i].one->count);
    }
}

int main(int argc, char **argv) {
    if (argc < 3) return 2;
    for (int i = 0; i < LIBRARIES; i++) load(&libraries[i]);
#ifdef WITH_GMIME
    gmime_begin();
#else
    fprintf(stderr, "GMime: not there, its rows are left out\n");
#endif
    take_cases(argv[1]);
    make_rows();
    if (strcmp(argv[2], "--count") == 0) {
        count();
        return 0;
    }
    compare_all();
    if (strcmp(argv[2], "--smoke") == 0) {
        smoke();
        printf("%d passed, %d failed\n", passed, failed);
    } else if (failed == 0) {
        measure(atoi(argv[2]));
    }
    return failed != 0;
}
