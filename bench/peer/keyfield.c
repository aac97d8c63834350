#include "keyfield.h"

#include "address.h"
#include "table.h"

bool part_field(const uint8_t *s, size_t n, struct key_field *field) {
    const uint8_t *end = s + n;
    bool preference = false;
    struct kinds kinds;

    field->address = field->keydata = NULL;
    field->mutual = false;
    for (;;) {
        const uint8_t *next = memchr(s, ';', (size_t)(end - s)), *stop = next ? next : end;
        const uint8_t *equals = memchr(s, '=', (size_t)(stop - s));
        if (equals == NULL) return false;
        const uint8_t *name_end = equals, *value = equals + 1, *value_end = stop;
        while (s < name_end && is(*s, BLANK)) s++;
        while (s < name_end && is(name_end[-1], BLANK)) name_end--;
        while (value < value_end && is(*value, BLANK)) value++;
        while (value < value_end && is(value_end[-1], BLANK)) value_end--;
        size_t name_length = (size_t)(name_end - s), length = (size_t)(value_end - value);

        if (name_length == 0) return false;
        if (*s == '_') {
            /* ignored */
        } else if (name_length == 4 && memcmp(s, "addr", 4) == 0) {
            if (field->address || !plain_address(value, length, &kinds)) return false;
            field->address = value;
            field->address_length = length;
        } else if (name_length == 14 && memcmp(s, "prefer-encrypt", 14) == 0) {
            if (preference) return false;
            preference = true;
            field->mutual = length == 6 && memcmp(value, "mutual", 6) == 0;
        } else if (name_length == 7 && memcmp(s, "keydata", 7) == 0) {
            if (next) return false; /* not the last piece */
            field->keydata = value;
            field->keydata_length = length;
        } else {
            return false;
        }
        if (next == NULL) return field->address && field->keydata;
        s = next + 1;
    }
}

size_t decode_key(const uint8_t *s, size_t n, uint8_t *key) {
    const uint8_t *end = s + n;
    size_t made = 0;
    for (;;) {
        /* whole groups without a blank */
        while (end - s >= 4) {
            uint32_t a = base64_digit[s[0]], b = base64_digit[s[1]], c = base64_digit[s[2]], d = base64_digit[s[3]];
            if ((a | b | c | d) >= 64) break;
            if (made + 3 > KEY_LIMIT) return 0;
            uint32_t bits = a << 18 | b << 12 | c << 6 | d;
            key[made] = (uint8_t)(bits >> 16);
            key[made + 1] = (uint8_t)(bits >> 8);
            key[made + 2] = (uint8_t)bits;
            made += 3;
            s += 4;
        }
        /* one group octet by octet: it holds a blank or the padding, or it is the end */
        uint32_t group[4];
        int k = 0;
        while (s < end && k < 4) {
            uint32_t digit = base64_digit[*s++];
            if (digit == BASE64_BAD) return 0;
            if (digit != BASE64_BLANK) group[k++] = digit;
        }
        if (k == 0) return made;
        if (k < 4 || group[0] >= 64 || group[1] >= 64) return 0;
        uint32_t octets = group[2] == BASE64_PAD ? 1 : group[3] == BASE64_PAD ? 2 : 3;
        if (octets == 1 && (group[3] != BASE64_PAD || group[1] & 15)) return 0;
        if (octets == 2 && group[2] & 3) return 0;
        if (made + octets > KEY_LIMIT) return 0;
        uint32_t bits = group[0] << 18 | group[1] << 12 | (octets > 1 ? group[2] << 6 : 0) | (octets > 2 ? group[3] : 0);
        for (uint32_t i = 0; i < octets; i++) key[made++] = (uint8_t)(bits >> (16 - 8 * i));
        if (octets < 3) {
            while (s < end && is(*s, BLANK)) s++;
            return s == end ? made : 0;
        }
    }
}
