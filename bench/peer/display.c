#include "address.h"
#include "peer.h"
#include "punycode.h"

enum { SHOWN_LIMIT = 4 * ADDRESS_LIMIT, PREFIX_LENGTH = 4 };

static uint8_t *put_point(uint8_t *out, uint32_t point) {
    if (point < 0x80) {
        *out++ = (uint8_t)point;
        return out;
    }
    if (point < 0x800) {
        *out++ = (uint8_t)(0xc0 | point >> 6);
    } else {
        if (point < 0x10000) {
            *out++ = (uint8_t)(0xe0 | point >> 12);
        } else {
            *out++ = (uint8_t)(0xf0 | point >> 18);
            *out++ = (uint8_t)(0x80 | (point >> 12 & 63));
        }
        *out++ = (uint8_t)(0x80 | (point >> 6 & 63));
    }
    *out++ = (uint8_t)(0x80 | (point & 63));
    return out;
}

/* W12: writes what is shown for the form of a label; behind it. */
static uint8_t *put_label(uint8_t *out, const uint8_t *form, size_t n) {
    uint32_t points[LABEL_LIMIT];
    uint8_t again[LABEL_LIMIT], *to = out;
    if (n > PREFIX_LENGTH && memcmp(form, "xn--", PREFIX_LENGTH) == 0) {
        long many = decode_points(form + PREFIX_LENGTH, n - PREFIX_LENGTH, points);
        for (long i = 0; i < many; i++) to = put_point(to, points[i]);
        if (many > 0 && label_form(again, out, (size_t)(to - out)) == n && memcmp(again, form, n) == 0) return to;
    }
    memcpy(out, form, n);
    return out + n;
}

peer_written peer_display(const uint8_t *address, size_t address_length, uint8_t *out, size_t out_length) {
    struct kinds kinds;
    uint8_t form[ADDRESS_LIMIT], shown[SHOWN_LIMIT], *to = shown;
    if (!plain_address(address, address_length, &kinds)) return (peer_written){9, 0};
    size_t n = make_canonical(form, address, address_length);

    const uint8_t *end = form + n, *label = (const uint8_t *)memchr(form, '@', n) + 1;
    memcpy(to, form, (size_t)(label - form));
    to += label - form;
    for (;;) {
        const uint8_t *dot = memchr(label, '.', (size_t)(end - label)), *stop = dot ? dot : end;
        to = put_label(to, label, (size_t)(stop - label));
        if (dot == NULL) break;
        *to++ = '.';
        label = dot + 1;
    }
    size_t length = (size_t)(to - shown);
    if (out_length < length) return (peer_written){12, 0};
    memcpy(out, shown, length);
    return (peer_written){0, length};
}
