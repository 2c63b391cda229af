/*
 * Memory to lend to the library so that a touch outside a slice shows: a slice ends at a page that may not be touched,
 * or begins after one, or lies between guard bytes, or has a heap block of its own for valgrind to watch.
 */
#ifndef LEND_H
#define LEND_H

#include <stddef.h>
#include <stdint.h>

enum way { AT_END, AT_START, BETWEEN, ON_HEAP, WAYS };

struct lent {
    uint8_t *pages; /* between two pages that may not be touched */
    size_t room;
    enum way way;
    uint8_t *at;
    size_t n;
};

void lent_open(struct lent *l, size_t room);

/* Lends a copy of n bytes; `odd` moves a slice between guard bytes by that much. The pointer of an empty slice may be
 * one that must not be read: the page's, or null where `odd` is odd. */
uint8_t *lend(struct lent *l, const void *bytes, size_t n, enum way way, unsigned odd);

/* Takes the memory back; whether the guard bytes are unchanged. */
int taken_back(struct lent *l);

#endif
