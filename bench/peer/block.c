#include "block.h"

static bool same_name(const uint8_t *s, const char *name, size_t n) {
    for (size_t i = 0; i < n; i++) {
        if (lower(s[i]) != (uint8_t)name[i]) return false;
    }
    return true;
}

static enum field field_of(const uint8_t *s, size_t n) {
    switch (n) {
    case 2: return same_name(s, "to", 2) || same_name(s, "cc", 2) ? RECIPIENTS : OTHER;
    case 4: return same_name(s, "from", 4) ? FROM : same_name(s, "date", 4) ? DATE : OTHER;
    case 8: return same_name(s, "reply-to", 8) ? RECIPIENTS : OTHER;
    case 9: return same_name(s, "autocrypt", 9) ? AUTOCRYPT : OTHER;
    case 12: return same_name(s, "content-type", 12) ? CONTENT_TYPE : OTHER;
    case 16: return same_name(s, "autocrypt-gossip", 16) ? AUTOCRYPT_GOSSIP : OTHER;
    default: return OTHER;
    }
}

bool read_block(const uint8_t *s, size_t n, unsigned wanted, struct values *values) {
    const uint8_t *end = s + n;
    struct value *value = NULL;
    uint32_t filled = 0;
    bool opened = false, takes = false;

    values->count = 0;
    if (n > BLOCK_LIMIT) return false;
    while (s < end) {
        const uint8_t *feed = memchr(s, '\n', (size_t)(end - s));
        const uint8_t *next = feed ? feed + 1 : end, *stop = feed ? feed : end;
        if (feed && stop > s && stop[-1] == '\r') stop--;
        if (stop == s) return true;
        if (is(*s, BLANK)) {
            if (!opened) return false;
        } else {
            const uint8_t *name = s;
            while (s < stop && is(*s, NAME)) s++;
            if (s == name || s == stop || *s != ':') return false;
            enum field field = field_of(name, (size_t)(s - name));
            opened = true;
            takes = wanted >> field & 1;
            if (takes) {
                value = &values->value[values->count++];
                *value = (struct value){filled, 0, field};
            }
            s++;
        }
        if (takes) {
            size_t length = (size_t)(stop - s);
            memcpy(values->text + filled, s, length);
            filled += (uint32_t)length;
            value->length += (uint32_t)length;
        }
        s = next;
    }
    return true;
}

bool is_report(const uint8_t *s, size_t n) {
    const uint8_t *end = s + n;
    while (s < end && is(*s, BLANK)) s++;
    if (end - s < 16 || !same_name(s, "multipart/report", 16)) return false;
    s += 16;
    return s == end || is(*s, BLANK) || *s == ';' || *s == '(';
}
