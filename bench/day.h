/*
 * A day of the radar, made up: 288 volumes, one every five minutes. Each has the sixteen sweeps of volume coverage
 * pattern 11, four of 720 radials and twelve of 360, and between them messages 2, 5, 15 and 18 in their segments and a
 * keep alive. A volume has the same frames as any other; times, angles and contents differ.
 */
#ifndef DAY_H
#define DAY_H

#include <stddef.h>
#include <stdint.h>

#include "make.h"

enum { VOLUMES = 288, LONG_VOLUME = 40000000, MOST_MESSAGES = 8000 };

/* Bytes of the volume, from a place on. */
struct part {
    size_t at, size;
};

struct volume {
    uint8_t bytes[LONG_VOLUME];
    size_t size, frames, messages, radials;
    struct part message[MOST_MESSAGES]; /* the bodies of data frames */
    struct part radial[MOST_MESSAGES];  /* the bodies of messages 31 */
};

/* Volume 0 to 287 of the day, the same each time. */
void make_volume(struct volume *v, unsigned number);

/* Turns most gates of a radial with that many moments, the last blocks of its `size` bytes, to 0: stretches of zeros
 * with shorter ones between them that stay as they are. */
void thin_out(uint8_t *radial, unsigned moments, size_t size, struct chance *c);

#endif
