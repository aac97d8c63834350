#ifndef BENCH_GMIME_H
#define BENCH_GMIME_H

#include <stddef.h>
#include <stdint.h>

#define GMIME_UNREAD SIZE_MAX

void gmime_begin(void);

/* The length of the key that the block brings, 0 for none, GMIME_UNREAD where GMime does not read it. */
size_t gmime_read(const uint8_t *block, size_t n);

#endif
