#include "address.h"
#include "peer.h"
#include "table.h"

enum { LINE = 76, LINE_OCTETS = LINE / 4 * 3 };

static const char alphabet[] = "ABCDEFGHIJKLMNOPQRSTUVWXYZabcdefghijklmnopqrstuvwxyz0123456789+/";

static uint8_t *put(uint8_t *out, const char *text) {
    size_t n = strlen(text);
    memcpy(out, text, n);
    return out + n;
}

/* One line: at most 57 octets as Base64. */
static uint8_t *put_line(uint8_t *out, const uint8_t *s, size_t n) {
    *out++ = ' ';
    for (; n >= 3; n -= 3, s += 3) {
        uint32_t bits = (uint32_t)s[0] << 16 | (uint32_t)s[1] << 8 | s[2];
        *out++ = (uint8_t)alphabet[bits >> 18];
        *out++ = (uint8_t)alphabet[bits >> 12 & 63];
        *out++ = (uint8_t)alphabet[bits >> 6 & 63];
        *out++ = (uint8_t)alphabet[bits & 63];
    }
    if (n > 0) {
        uint32_t bits = (uint32_t)s[0] << 16 | (n > 1 ? (uint32_t)s[1] << 8 : 0);
        *out++ = (uint8_t)alphabet[bits >> 18];
        *out++ = (uint8_t)alphabet[bits >> 12 & 63];
        *out++ = n > 1 ? (uint8_t)alphabet[bits >> 6 & 63] : '=';
        *out++ = '=';
    }
    return put(out, "\r\n");
}

static peer_written write_field(const char *opening, const char *preference, const uint8_t *address, size_t address_length,
                                const uint8_t *key, size_t key_length, uint8_t *out, size_t out_length) {
    struct kinds kinds;
    uint8_t form[ADDRESS_LIMIT];
    if (!plain_address(address, address_length, &kinds)) return (peer_written){9, 0};
    if (key_length < 1 || key_length > KEY_LIMIT) return (peer_written){11, 0};
    size_t form_length = make_canonical(form, address, address_length), lines = (key_length + LINE_OCTETS - 1) / LINE_OCTETS;
    size_t length = strlen(opening) + form_length + strlen(preference) + strlen("; keydata=\r\n")
        + (key_length + 2) / 3 * 4 + lines * 3;
    if (out_length < length) return (peer_written){12, 0};

    out = put(out, opening);
    memcpy(out, form, form_length);
    out = put(out + form_length, ";");
    out = put(out, preference);
    out = put(out, " keydata=\r\n");
    for (; key_length > LINE_OCTETS; key += LINE_OCTETS, key_length -= LINE_OCTETS) out = put_line(out, key, LINE_OCTETS);
    put_line(out, key, key_length);
    return (peer_written){0, length};
}

peer_written peer_write_autocrypt(const uint8_t *address, size_t address_length,
                                  const uint8_t *key, size_t key_length, bool mutual, uint8_t *out, size_t out_length) {
    return write_field("Autocrypt: addr=", mutual ? " prefer-encrypt=mutual;" : "", address, address_length,
                       key, key_length, out, out_length);
}

peer_written peer_write_gossip(const uint8_t *address, size_t address_length,
                               const uint8_t *key, size_t key_length, uint8_t *out, size_t out_length) {
    return write_field("Autocrypt-Gossip: addr=", "", address, address_length, key, key_length, out, out_length);
}
