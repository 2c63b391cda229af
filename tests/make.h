/*
 * Messages for the tests and the benchmark, made byte by byte from the rules' tables, with contents by chance.
 * Each `make_` writes to `out`, which has room enough, and gives the length.
 */
#ifndef MAKE_H
#define MAKE_H

#include <stddef.h>
#include <stdint.h>

/* Numbers by chance, the same ones for the same seed. */
struct chance {
    uint64_t state;
};

uint64_t chance(struct chance *c);
uint64_t below(struct chance *c, uint64_t n); /* 0 to n - 1 */
void fill(struct chance *c, uint8_t *p, size_t n);
void shuffle(struct chance *c, uint32_t *list, size_t n);

/* Big-endian numbers of 1 to 8 bytes. */
void put(uint8_t *p, unsigned wide, uint64_t x);
uint64_t get(const uint8_t *p, unsigned wide);

/* A session frame of any kind. */
size_t make_frame(uint8_t *out, uint32_t kind, uint32_t second, const uint8_t *body, size_t n);

/* A data frame with one message segment. */
struct make_segment {
    uint32_t channel, type, sequence, date, ms, segments, number;
};
size_t make_segment(uint8_t *out, const struct make_segment *s, const uint8_t *data, size_t n);

/* The same in a header's long form, of any type and length; `segments` and `number` are not used. */
size_t make_long(uint8_t *out, const struct make_segment *s, const uint8_t *data, size_t n);

/* A radial's body. Blocks follow each other, each after its gap; `tail` is bytes past the radial length. */
struct make_moment {
    uint32_t name, gates, word, scale, offset;
};
struct make_radial {
    uint32_t constant[3]; /* lengths of RVOL, RELV, RRAD */
    uint32_t moments;
    struct make_moment moment[6];
    uint32_t gap[9];
    uint32_t tail;
};
size_t make_radial(uint8_t *out, const struct make_radial *r, struct chance *c);

extern const uint32_t make_names[6]; /* of the moments */

/* A map's header alone, an azimuth of that many zones, and a whole body with at most that many to an azimuth. */
size_t make_map_header(uint8_t *out, uint32_t elevations, struct chance *c);
size_t make_zones(uint8_t *out, uint32_t zones, struct chance *c);
size_t make_map(uint8_t *out, uint32_t elevations, uint32_t most_zones, struct chance *c);

/* A map's body like another one's, at another date and time. One azimuth in so many, by chance, has a zone with another
 * code, one that is two of the same code, or one that ends elsewhere. */
size_t make_near_map(uint8_t *out, const uint8_t *map, uint32_t one_azimuth_in, struct chance *c);

/* A censor body's numbers: the count, then six for each region. */
size_t make_censor(uint16_t *out, uint32_t count, struct chance *c);

#endif
