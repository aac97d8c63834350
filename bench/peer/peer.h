/* The C program beside which the library is measured: the same calls on the same table, as a good C programmer would
 * write them, with no proof. The arguments and the answers are those of include/vienghulac.h, under another name. */
#ifndef PEER_H
#define PEER_H

#include <stdbool.h>
#include <stddef.h>
#include <stdint.h>

typedef struct { uint32_t number; uint32_t index; } peer_answer;
typedef struct { uint32_t number; uint32_t index; uint32_t advice; } peer_advice;
typedef struct { uint32_t number; uint32_t index; uint32_t advice; uint32_t looked_up; } peer_quick;
typedef struct { uint64_t start; uint64_t length; } peer_part;
typedef struct { uint64_t number; uint64_t length; } peer_written;

peer_answer peer_check(const uint8_t *table, size_t table_length);

peer_answer peer_convert(uint8_t *table, size_t table_length);

peer_answer peer_process(uint8_t *table, size_t table_length, uint64_t receipt,
                         const uint8_t *outer, size_t outer_length,
                         const uint8_t *payload, size_t payload_length, uint8_t gossip);

peer_advice peer_recommend(const uint8_t *table, size_t table_length,
                           const uint8_t *recipients, size_t recipients_length, bool mutual, bool reply);

peer_quick peer_recommend_quick(const uint8_t *table, size_t table_length,
                                const uint8_t *recipients, size_t recipients_length, bool mutual, bool reply);

peer_part peer_target_key(const uint8_t *table, size_t table_length,
                          const uint8_t *recipients, size_t recipients_length, bool mutual, bool reply, uint64_t place);

peer_written peer_write_autocrypt(const uint8_t *address, size_t address_length,
                                  const uint8_t *key, size_t key_length, bool mutual, uint8_t *out, size_t out_length);

peer_written peer_write_gossip(const uint8_t *address, size_t address_length,
                               const uint8_t *key, size_t key_length, uint8_t *out, size_t out_length);

peer_written peer_display(const uint8_t *address, size_t address_length, uint8_t *out, size_t out_length);

#endif
