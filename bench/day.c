#include "day.h"

#include <stdio.h>
#include <stdlib.h>
#include <string.h>

/* Milliseconds from volume to volume, and from sweep to sweep while the antenna rises. */
enum { EACH_VOLUME = 300000, RISE = 1400 };

enum { CUTS = 16, DATE = 16000, MOMENTS = 6, LONG_FRAME = 16384 };

/* Which moments a sweep has: those of surveillance, those of Doppler, or all. A bit for each of make_names. */
enum { SURVEILLANCE = 0x39, DOPPLER = 0x07, ALL = 0x3F };

/* Volume coverage pattern 11: elevations and periods as in 2620002N, Appendix C. The gates, of 250 m, are made up: to
 * where the beam is 21 km high, at most to 460 km of reflectivity and to 300 km of the other moments. */
static const struct cut {
    double elevation;
    uint32_t period, moments, radials, reflectivity, others;
} cuts[CUTS] = {
    { 0.5, 19270, SURVEILLANCE, 720, 1832, 1192 },
    { 0.5, 18720, DOPPLER, 720, 1832, 1192 },
    { 1.45, 18140, SURVEILLANCE, 720, 1688, 1192 },
    { 1.45, 18720, DOPPLER, 720, 1688, 1192 },
    { 2.4, 22340, ALL, 360, 1364, 1192 },
    { 3.4, 20120, ALL, 360, 1116, 1116 },
    { 4.3, 20120, ALL, 360, 948, 948 },
    { 5.3, 20620, ALL, 360, 808, 808 },
    { 6.2, 20610, ALL, 360, 708, 708 },
    { 7.5, 14300, ALL, 360, 600, 600 },
    { 8.7, 14170, ALL, 360, 524, 524 },
    { 10.0, 14160, ALL, 360, 460, 460 },
    { 12.0, 14130, ALL, 360, 388, 388 },
    { 14.0, 14110, ALL, 360, 336, 336 },
    { 16.7, 14060, ALL, 360, 280, 280 },
    { 19.5, 14010, ALL, 360, 240, 240 },
};

/* A volume in the making. */
struct making {
    struct volume *v;
    uint32_t ms, sequence;
    struct chance c;
};

void thin_out(uint8_t *radial, unsigned moments, size_t size, struct chance *c)
{
    for (unsigned k = 0; k < moments; k++) {
        uint8_t *first = radial + get(radial + 32 + 4 * (3 + k), 4) + 28;
        uint8_t *end = k + 1 < moments ? radial + get(radial + 32 + 4 * (4 + k), 4) : radial + size;
        for (uint8_t *at = first; at < end; at += below(c, 100)) {
            size_t left = (size_t)(end - at), zeros = 1 + below(c, left < 400 ? left : 400);
            memset(at, 0, zeros);
            at += zeros;
        }
    }
}

static void put_float(uint8_t *p, double x)
{
    float rounded = (float)x;
    uint32_t bits;
    memcpy(&bits, &rounded, sizeof bits);
    put(p, 4, bits);
}

/* Where the next frame begins, with room for any that the volume has. */
static uint8_t *next_frame(struct volume *v)
{
    if (v->size + LONG_FRAME > LONG_VOLUME || v->messages == MOST_MESSAGES) {
        fprintf(stderr, "a volume has more than %d bytes or %d messages\n", LONG_VOLUME, MOST_MESSAGES);
        exit(2);
    }
    return v->bytes + v->size;
}

/* Data that are NULL stand at their place already. */
static void add_segment(struct making *m, uint32_t type, uint32_t segments, uint32_t number, const uint8_t *data,
                        size_t n)
{
    struct volume *v = m->v;
    struct make_segment s = { 8, type, m->sequence, DATE, m->ms, segments, number };
    uint8_t *frame = next_frame(v);
    make_segment(frame, &s, data == NULL ? frame + 28 : data, n);
    v->message[v->messages++] = (struct part){ v->size + 12, 16 + n };
    v->frames++;
    v->size += 28 + n;
}

static void add_message(struct making *m, uint32_t type, const uint8_t *body, size_t n)
{
    uint32_t segments = (uint32_t)((n + 2399) / 2400);
    for (uint32_t k = 0; k < segments; k++)
        add_segment(m, type, segments, k + 1, body + 2400 * k, k + 1 < segments ? 2400 : n - 2400 * k);
    m->sequence++;
}

/* A message with a body by chance. */
static void add_any(struct making *m, uint32_t type, size_t n)
{
    static uint8_t body[10000];
    fill(&m->c, body, n);
    add_message(m, type, body, n);
}

static void add_map(struct making *m)
{
    static uint8_t body[40000];
    add_message(m, 15, body, make_map(body, 5, 4, &m->c));
}

static void add_keep_alive(struct making *m)
{
    m->v->size += make_frame(next_frame(m->v), 4, 0, NULL, 0);
    m->v->frames++;
}

/* 0 or 5 at the start of a sweep, 2 at its end, 3 and 4 at those of the volume. */
static unsigned status_of(unsigned cut, unsigned radial)
{
    if (radial == 0)
        return cut == 0 ? 3 : cut == CUTS - 1 ? 5 : 0;
    if (radial == cuts[cut].radials - 1)
        return cut == CUTS - 1 ? 4 : 2;
    return 1;
}

static void add_radial(struct making *m, unsigned cut, unsigned number)
{
    const struct cut *s = &cuts[cut];
    struct make_radial r = { .constant = { 44, 12, 28 } };
    for (unsigned k = 0; k < MOMENTS; k++)
        if (s->moments >> k & 1)
            r.moment[r.moments++] = (struct make_moment){ make_names[k], k == 0 ? s->reflectivity : s->others,
                                                          k == 4 ? 16 : 8, 0x40000000, 0x42840000 };
    uint8_t *body = next_frame(m->v) + 28;
    size_t size = make_radial(body, &r, &m->c);
    thin_out(body, r.moments, size, &m->c);
    memcpy(body, "MADE", 4);
    put(body + 4, 4, m->ms);
    put(body + 8, 2, DATE);
    put(body + 10, 2, number + 1);
    put_float(body + 12, (number + 0.5) * 360 / s->radials);
    put(body + 20, 1, s->radials == 720 ? 1 : 2);
    put(body + 21, 1, status_of(cut, number));
    put(body + 22, 1, cut + 1);
    put_float(body + 24, s->elevation);
    m->v->radial[m->v->radials++] = (struct part){ m->v->size + 28, size };
    add_segment(m, 31, 1, 1, NULL, size);
    m->sequence++;
}

static void add_sweep(struct making *m, unsigned cut)
{
    uint32_t start = m->ms;
    for (unsigned i = 0; i < cuts[cut].radials; i++) {
        m->ms = start + (uint32_t)((uint64_t)cuts[cut].period * i / cuts[cut].radials);
        add_radial(m, cut, i);
    }
    m->ms = start + cuts[cut].period;
}

void make_volume(struct volume *v, unsigned number)
{
    struct making m = { v, number * EACH_VOLUME, 0, { number } };
    v->size = v->frames = v->messages = v->radials = 0;
    for (unsigned cut = 0; cut < CUTS; cut++) {
        add_any(&m, 2, 80);
        if (cut == 0)
            add_any(&m, 5, 22 + 46 * CUTS);
        if (cut == 4)
            add_map(&m);
        if (cut == 8)
            add_any(&m, 18, 9468);
        add_sweep(&m, cut);
        add_keep_alive(&m);
        m.ms += RISE;
    }
}
