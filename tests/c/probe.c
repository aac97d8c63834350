/* The static library called from C: a few answers whose values are known from RFC 4648 and from docs/SCOPE.md. */
#include "expect.h"

typedef struct { uint64_t kind, value; } answer;

answer probe_decode(const uint8_t *text, size_t length, uint8_t *out, size_t room);
answer probe_lines(const uint8_t *key, size_t length, uint8_t *out, size_t room, size_t at);
answer probe_skip(const uint8_t *s, size_t length, size_t at);
answer probe_date(const uint8_t *value, size_t length);
bool probe_is_zero(const uint8_t *s, size_t length);
bool probe_same_name(const uint8_t *a, size_t m, const uint8_t *b, size_t n);
uint64_t probe_field_number(const uint8_t *block, size_t length, size_t k, uint64_t *places, size_t count);
uint64_t probe_read_field(const uint8_t *value, size_t length, uint8_t *key, size_t room, uint64_t *told, size_t count);

static bool decodes(const char *text, const char *to) {
    uint8_t out[16];
    memset(out, '?', sizeof out);
    answer r = probe_decode(octets(text), strlen(text), out, sizeof out);
    return r.kind == 0 && r.value == strlen(to) && memcmp(out, to, strlen(to)) == 0 && out[strlen(to)] == '?';
}

static bool dated(const char *text, uint64_t kind, uint64_t seconds) {
    answer r = probe_date(octets(text), strlen(text));
    return r.kind == kind && r.value == seconds;
}

/* the field of the number k of a block has the kind and the places, written to the front of what is lent */
static bool numbered(size_t k, size_t count, uint64_t kind, const uint64_t places[5]) {
    const char *block = "A:b\nTo: c@d\n\n";
    uint64_t lent[5] = {77, 77, 77, 77, 77};
    return probe_field_number(octets(block), strlen(block), k, lent, count) == kind && memcmp(lent, places, sizeof lent) == 0;
}

static bool reads_field(void) {
    const char *value = "addr=a@b; prefer-encrypt=mutual; keydata=Zm9v";
    uint8_t key[4] = "....";
    uint64_t told[4];
    return probe_read_field(octets(value), strlen(value), key, sizeof key, told, 4) == 0 && told[0] == 5 && told[1] == 8 && told[2] == 3 &&
           told[3] == 1 && memcmp(key, "foo.", 4) == 0;
}

int main(void) {
    const uint64_t none[5] = {77, 77, 77, 77, 77}, second[5] = {4, 6, 7, 12, 77};
    uint8_t zeros[100] = {0}, out[16] = "................", room[16]; /* `room` holds anything after a refusal */
    expect("foobar", decodes("Zm9vYmFy", "foobar"));
    expect("fo", decodes("Zm8=", "fo"));
    expect("a null pointer with length 0", probe_decode(NULL, 0, NULL, 0).kind == 0);
    expect("unused bits", probe_decode(octets("Zh=="), 4, room, 16).kind == 1);
    expect("no room", probe_decode(octets("Zm9v"), 4, room, 2).kind == 1);
    answer r = probe_lines(octets("foo"), 3, out, 16, 1);
    expect("lines", r.kind == 0 && r.value == 8 && memcmp(out, ". Zm9v\r\n........", 16) == 0);
    r = probe_skip(octets(" (a(b)) x"), 9, 0);
    expect("skip", r.kind == 0 && r.value == 8);
    expect("zero date", dated("1 Jan 1970 00:00:00 +0000", 0, 0));
    expect("march", dated("1 Mar 2000 00:00:00 -0100", 0, 951872400));
    expect("no leap day", dated("29 Feb 1900 00:00 GMT", 1, 0));
    expect("zeros", probe_is_zero(zeros, 100));
    zeros[99] = 1;
    expect("no zeros", !probe_is_zero(zeros, 100));
    expect("names", probe_same_name(octets("Autocrypt"), 9, octets("aUTOCRYPT"), 9));
    expect("a field", numbered(1, 5, 2, second));
    expect("no field", numbered(2, 5, 0, none));
    expect("too few numbers", numbered(1, 3, 9, none));
    expect("a key field", reads_field());
    return counted();
}
