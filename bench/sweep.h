/*
 * What the benchmark works on: the sample recording's shape scaled to one sweep. 720 radials of nine blocks each (REF
 * with 1,832 gates, VEL, SW, ZDR, RHO with 1,192 of 8 bits, PHI with 1,192 of 16), a set of 128 full segments, a filter
 * map of five elevation segments, two to compare it with, and one as large as a map can be; recordings to salvage; one
 * radial as long as there can be; one volume of the made-up day.
 */
#ifndef SWEEP_H
#define SWEEP_H

#include <stddef.h>
#include <stdint.h>

#include "day.h"

enum { RADIALS = 720, BODY = 9304, FRAME = BODY + 28, LONG_BODY = 307200, SEGMENTS = 128, LONG_MAP = 147606 };
enum { MOST_HALFWORDS = 421200 }; /* of a list of differences */

enum { LONG_RADIAL = 1048560 }; /* its body */

enum { SAMPLE_VOLUME = VOLUMES / 2 }; /* of the day, at noon */

enum { LONG_RECORDING = 6100000, MOST_NUMBERS = 2 * ((LONG_RECORDING + 28) / 29) };

struct map {
    uint8_t bytes[LONG_MAP];
    size_t size;
};

struct recording {
    uint8_t bytes[LONG_RECORDING];
    size_t size;
    size_t length, numbers; /* how much of both outputs a salvage of it needs */
};

struct sweep {
    uint8_t recording[RADIALS * FRAME]; /* frame i begins at i * FRAME, its message 12 and its body 28 bytes after that */
    uint8_t long_body[LONG_BODY];
    uint8_t set[LONG_BODY + SEGMENTS * 28]; /* long_body in 128 frames, out of order */
    struct map map;
    struct map near;  /* the same but for one azimuth in 100 */
    struct map apart; /* of the same shape, its zones by chance too */
    struct map largest; /* 20 zones in each azimuth */
    struct recording clean;   /* 720 radials of 200 to 1,840 gates, most of them 0 */
    struct recording damaged; /* the same with a few bytes altered, cut out or inserted in one frame of 100 */
    struct recording random;  /* bytes by chance, as many */
    struct recording longest; /* one radial, in a header's long form */
    struct volume volume;     /* of the day */
    uint8_t salvaged[LONG_RECORDING];
    uint64_t runs[MOST_NUMBERS];
    uint16_t list[MOST_HALFWORDS];
    uint8_t out[LONG_BODY + SEGMENTS * 28];
};

extern struct sweep sweep;

void make_sweep(void);

/* One task done by one side: `run` makes `calls` calls and gives a number that depends on their answers, the same one
 * for both sides. `bytes` is how many a call goes through, where that is printed. A list ends with a null name. */
struct batch {
    const char *name;
    uint64_t calls;
    uint64_t (*run)(void);
    const size_t *bytes;
};

extern const struct batch plain_batches[], ulm_batches[], before_batches[];

/* The tasks on a volume of the day have names that begin so. */
#define OF_THE_DAY "day_"

#endif
