/*
 * A damaged recording salvaged by the words of the rule: each place in turn gets a mark, and neighbours with the same
 * mark are grouped. It is slow and independent of plain.c, whose salvages are compared with these.
 */
#ifndef BYTEWISE_H
#define BYTEWISE_H

#include <stddef.h>
#include <stdint.h>

enum { BYTEWISE_MOST = 1 << 22 };

struct bytewise {
    size_t kept, length, runs;
};

/* Salvages n bytes, at most BYTEWISE_MOST. The output has room for n bytes, the list for 2 * ((n + 28) / 29)
 * numbers. */
struct bytewise salvage_bytewise(const uint8_t *buf, size_t n, uint8_t *out, uint64_t *list);

#endif
