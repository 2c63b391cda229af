#include "sweep.h"

#include <stdio.h>
#include <stdlib.h>
#include <string.h>

#include "make.h"
#include "plain.h"

struct sweep sweep;

static void make_recording(struct chance *c)
{
    static const uint32_t scale_bits = 0x40000000, offset_bits = 0x42840000; /* 2 and 66 */
    struct make_radial r = { .constant = { 44, 12, 28 }, .moments = 6 };
    for (unsigned k = 0; k < 6; k++)
        r.moment[k] = (struct make_moment){ make_names[k], k == 0 ? 1832 : 1192, k == 4 ? 16 : 8, scale_bits,
                                            offset_bits };
    struct make_segment s = { 8, 31, 0, 16000, 43200000, 1, 1 };
    for (size_t i = 0; i < RADIALS; i++) {
        uint8_t *frame = sweep.recording + i * FRAME;
        if (make_radial(frame + 28, &r, c) != BODY) {
            fprintf(stderr, "a radial isn't %d bytes long\n", BODY);
            exit(2);
        }
        s.sequence = (uint32_t)i;
        make_segment(frame, &s, frame + 28, BODY);
    }
}

/* Segments in the order 1, 52, 103, 26, ..: 51 has no divisor in common with 128, so each comes once. */
static void make_set(struct chance *c)
{
    struct make_segment s = { 8, 2, 7, 16000, 43200000, SEGMENTS, 0 };
    fill(c, sweep.long_body, LONG_BODY);
    for (uint32_t i = 0; i < SEGMENTS; i++) {
        uint32_t k = i * 51 % SEGMENTS;
        s.number = k + 1;
        make_segment(sweep.set + i * 2428, &s, sweep.long_body + k * 2400, 2400);
    }
}

/* A radial with that many gates in each moment, most of them 0. */
static size_t make_sparse_radial(uint8_t *out, uint32_t gates, struct chance *c)
{
    struct make_radial r = { .constant = { 44, 12, 28 }, .moments = 6 };
    for (unsigned k = 0; k < 6; k++)
        r.moment[k] = (struct make_moment){ make_names[k], gates, k == 3 || k == 4 ? 16 : 8, 0x40000000, 0x42840000 };
    size_t size = make_radial(out, &r, c);
    thin_out(out, r.moments, size, c);
    return size;
}

static void add_bytes(struct recording *r, const uint8_t *bytes, size_t n)
{
    if (r->size + n > LONG_RECORDING) {
        fprintf(stderr, "a recording has more than %d bytes\n", LONG_RECORDING);
        exit(2);
    }
    memcpy(r->bytes + r->size, bytes, n);
    r->size += n;
}

/* Adds a frame with one to eight bytes altered in its headers, or cut out or inserted anywhere. */
static void add_damaged(struct recording *r, uint8_t *frame, size_t n, uint64_t way, struct chance *c)
{
    uint8_t inserted[8];
    size_t few = 1 + below(c, 8), at = below(c, (way == 0 ? 28 : n) - few + 1);
    fill(c, way == 0 ? frame + at : inserted, few);
    add_bytes(r, frame, at);
    if (way == 2)
        add_bytes(r, inserted, few);
    if (way == 1)
        at += few;
    add_bytes(r, frame + at, n - at);
}

/* How much of both outputs a salvage of a recording needs. */
static void set_rooms(struct recording *r)
{
    plain_salvage_answer a = plain_salvage(r->bytes, r->size, sweep.salvaged, r->size, sweep.runs, MOST_NUMBERS);
    r->length = a.length;
    r->numbers = 2 * a.runs;
}

static void make_recordings(struct chance *c)
{
    static uint8_t frame[16384];
    struct make_segment s = { 8, 31, 0, 16000, 43200000, 1, 1 };
    for (uint32_t i = 0; i < RADIALS; i++) {
        size_t body = make_sparse_radial(frame + 28, 200 + (uint32_t)below(c, 1641), c);
        s.sequence = i;
        size_t n = make_segment(frame, &s, frame + 28, body);
        add_bytes(&sweep.clean, frame, n);
        if (i % 100 == 50)
            add_damaged(&sweep.damaged, frame, n, i / 100 % 3, c);
        else
            add_bytes(&sweep.damaged, frame, n);
    }
    sweep.random.size = sweep.clean.size;
    fill(c, sweep.random.bytes, sweep.random.size);
    set_rooms(&sweep.clean);
    set_rooms(&sweep.damaged);
    set_rooms(&sweep.random);
}

/* Its body is bytes by chance: nothing that is timed looks into it. */
static void make_longest_radial(struct chance *c)
{
    struct make_segment s = { 8, 31, 7, 16000, 43200000, 1, 1 };
    uint8_t *body = sweep.longest.bytes + 28;
    fill(c, body, LONG_RADIAL);
    sweep.longest.size = make_long(sweep.longest.bytes, &s, body, LONG_RADIAL);
    set_rooms(&sweep.longest);
}

static void make_largest_map(struct chance *c)
{
    size_t n = make_map_header(sweep.largest.bytes, 5, c);
    for (unsigned i = 0; i < 5 * 360; i++)
        n += make_zones(sweep.largest.bytes + n, 20, c);
    sweep.largest.size = n;
}

void make_sweep(void)
{
    struct chance c = { 720 };
    make_recording(&c);
    make_set(&c);
    sweep.map.size = make_map(sweep.map.bytes, 5, 4, &c);
    sweep.near.size = make_near_map(sweep.near.bytes, sweep.map.bytes, 100, &c);
    sweep.apart.size = make_map(sweep.apart.bytes, 5, 4, &c);
    make_recordings(&c);
    make_largest_map(&c);
    make_longest_radial(&c);
}
