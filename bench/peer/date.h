/* The Date of a message. */
#ifndef PEER_DATE_H
#define PEER_DATE_H

#include "octets.h"

/* The seconds since 1970 of a Date value, 0 before it; -1 where it does not read. */
int64_t read_date(const uint8_t *s, size_t n);

#endif
