/* The value of an Autocrypt or Autocrypt-Gossip field. */
#ifndef PEER_KEYFIELD_H
#define PEER_KEYFIELD_H

#include "octets.h"

struct key_field {
    const uint8_t *address, *keydata;
    size_t address_length, keydata_length;
    bool mutual;
};

/* Parts a value into its attributes; false where it is spoiled. The key data is not looked at yet. */
bool part_field(const uint8_t *s, size_t n, struct key_field *field);

/* Decodes key data into `key`; 0 where it is not the Base64 of 1 to 2,048 octets. */
size_t decode_key(const uint8_t *s, size_t n, uint8_t *key);

#endif
