#define _GNU_SOURCE
#include "lend.h"

#include <stdio.h>
#include <stdlib.h>
#include <string.h>
#include <sys/mman.h>
#include <unistd.h>

enum { GUARD = 64 };

void lent_open(struct lent *l, size_t room)
{
    size_t page = (size_t)sysconf(_SC_PAGESIZE);
    l->room = (room + 3 * GUARD + page - 1) / page * page;
    uint8_t *all = mmap(NULL, l->room + 2 * page, PROT_NONE, MAP_PRIVATE | MAP_ANONYMOUS, -1, 0);
    l->pages = all + page;
    if (all == MAP_FAILED || mprotect(l->pages, l->room, PROT_READ | PROT_WRITE) != 0) {
        perror("lend");
        exit(2);
    }
}

static uint8_t guard(size_t i)
{
    return (uint8_t)(0xC3 + 29 * i);
}

/* The guard bytes before and after the slice, as far as they lie in the pages. */
static uint8_t *guard_before(const struct lent *l)
{
    return l->way == AT_START ? NULL : l->at - GUARD;
}

static uint8_t *guard_after(const struct lent *l)
{
    return l->way == AT_END ? NULL : l->at + l->n;
}

static void set_guard(uint8_t *p)
{
    for (size_t i = 0; p != NULL && i < GUARD; i++)
        p[i] = guard(i);
}

static int guard_whole(const uint8_t *p)
{
    for (size_t i = 0; p != NULL && i < GUARD; i++)
        if (p[i] != guard(i))
            return 0;
    return 1;
}

uint8_t *lend(struct lent *l, const void *bytes, size_t n, enum way way, unsigned odd)
{
    l->n = n;
    l->way = way;
    switch (way) {
    case AT_END: l->at = l->pages + l->room - n; break;
    case AT_START: l->at = l->pages; break;
    case BETWEEN: l->at = l->pages + GUARD + odd % GUARD; break;
    default: l->at = malloc(n); break;
    }
    if (n != 0)
        memcpy(l->at, bytes, n);
    if (way != ON_HEAP) {
        set_guard(guard_before(l));
        set_guard(guard_after(l));
    }
    return n == 0 && odd % 2 == 1 ? NULL : l->at;
}

int taken_back(struct lent *l)
{
    if (l->way == ON_HEAP) {
        free(l->at);
        return 1;
    }
    return guard_whole(guard_before(l)) && guard_whole(guard_after(l));
}
