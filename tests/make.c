#include "make.h"

#include <string.h>

const uint32_t make_names[6] = { 0x44524546, 0x4456454C, 0x44535720, 0x445A4452, 0x44504849, 0x4452484F };

uint64_t chance(struct chance *c)
{
    uint64_t z = c->state += UINT64_C(0x9E3779B97F4A7C15);
    z = (z ^ z >> 30) * UINT64_C(0xBF58476D1CE4E5B9);
    z = (z ^ z >> 27) * UINT64_C(0x94D049BB133111EB);
    return z ^ z >> 31;
}

uint64_t below(struct chance *c, uint64_t n)
{
    return chance(c) % n;
}

void fill(struct chance *c, uint8_t *p, size_t n)
{
    for (; n >= 8; p += 8, n -= 8)
        put(p, 8, chance(c));
    put(p, (unsigned)n, chance(c));
}

void shuffle(struct chance *c, uint32_t *list, size_t n)
{
    for (size_t i = n; i > 1; i--) {
        size_t k = below(c, i);
        uint32_t kept = list[i - 1];
        list[i - 1] = list[k];
        list[k] = kept;
    }
}

void put(uint8_t *p, unsigned wide, uint64_t x)
{
    for (; wide > 0; wide--, x >>= 8)
        p[wide - 1] = (uint8_t)x;
}

uint64_t get(const uint8_t *p, unsigned wide)
{
    uint64_t x = 0;
    for (unsigned i = 0; i < wide; i++)
        x = x << 8 | p[i];
    return x;
}

size_t make_frame(uint8_t *out, uint32_t kind, uint32_t second, const uint8_t *body, size_t n)
{
    put(out, 4, kind);
    put(out + 4, 4, second);
    put(out + 8, 4, n);
    if (n != 0)
        memmove(out + 12, body, n);
    return 12 + n;
}

size_t make_segment(uint8_t *out, const struct make_segment *s, const uint8_t *data, size_t n)
{
    if (n != 0)
        memmove(out + 28, data, n);
    put(out, 4, 2);
    put(out + 4, 4, 0);
    put(out + 8, 4, 16 + n);
    put(out + 12, 2, (16 + n) / 2);
    put(out + 14, 1, s->channel);
    put(out + 15, 1, s->type);
    put(out + 16, 2, s->sequence);
    put(out + 18, 2, s->date);
    put(out + 20, 4, s->ms);
    put(out + 24, 2, s->segments);
    put(out + 26, 2, s->number);
    return 28 + n;
}

size_t make_long(uint8_t *out, const struct make_segment *s, const uint8_t *data, size_t n)
{
    make_segment(out, s, data, n);
    put(out + 12, 2, 65535);
    put(out + 24, 4, 16 + n);
    return 28 + n;
}

static size_t make_moment(uint8_t *p, const struct make_moment *m)
{
    put(p, 4, m->name);
    put(p + 8, 2, m->gates);
    put(p + 19, 1, m->word);
    put(p + 20, 4, m->scale);
    put(p + 24, 4, m->offset);
    return 28 + m->gates * (m->word / 8);
}

static size_t make_constant(uint8_t *p, unsigned k, uint32_t length)
{
    memcpy(p, k == 0 ? "RVOL" : k == 1 ? "RELV" : "RRAD", 4);
    put(p + 4, 2, length);
    return length;
}

static size_t radial_size(const struct make_radial *r)
{
    size_t n = 68 + r->constant[0] + r->constant[1] + r->constant[2];
    for (unsigned k = 0; k < r->moments; k++)
        n += 28 + r->moment[k].gates * (r->moment[k].word / 8);
    for (unsigned k = 0; k < 3 + r->moments; k++)
        n += r->gap[k];
    return n;
}

size_t make_radial(uint8_t *out, const struct make_radial *r, struct chance *c)
{
    size_t size = radial_size(r), at = 68;
    fill(c, out, size + r->tail);
    out[16] = 0;
    put(out + 18, 2, size);
    put(out + 30, 2, 3 + r->moments);
    for (unsigned k = 0; k < 3 + r->moments; k++) {
        at += r->gap[k];
        put(out + 32 + 4 * k, 4, at);
        at += k < 3 ? make_constant(out + at, k, r->constant[k]) : make_moment(out + at, &r->moment[k - 3]);
    }
    return size + r->tail;
}

/* One azimuth: ends rise by chance, and each leaves room for those after it. */
size_t make_zones(uint8_t *out, uint32_t zones, struct chance *c)
{
    uint32_t end = 0;
    put(out, 2, zones);
    for (uint32_t k = 0; k < zones; k++) {
        uint32_t after = zones - 1 - k;
        end = after == 0 ? 511 : end + (uint32_t)below(c, (511 - after - end) / (after + 1) + 1);
        put(out + 2 + 4 * k, 2, below(c, 3));
        put(out + 4 + 4 * k, 2, end);
        end++;
    }
    return 2 + 4 * zones;
}

size_t make_map_header(uint8_t *out, uint32_t elevations, struct chance *c)
{
    put(out, 2, 1 + below(c, 65535));
    put(out + 2, 2, below(c, 1441));
    put(out + 4, 2, elevations);
    return 6;
}

size_t make_map(uint8_t *out, uint32_t elevations, uint32_t most_zones, struct chance *c)
{
    size_t n = make_map_header(out, elevations, c);
    for (uint32_t i = 0; i < 360 * elevations; i++)
        n += make_zones(out + n, 1 + (uint32_t)below(c, most_zones), c);
    return n;
}

/* Changes a zone of an azimuth, or the end between it and the next one, where there is one. */
static void change_zone(uint8_t *azimuth, struct chance *c)
{
    uint32_t zones = (uint32_t)get(azimuth, 2), k = (uint32_t)below(c, zones);
    uint8_t *zone = azimuth + 2 + 4 * k;
    uint64_t start = k == 0 ? 0 : get(zone - 2, 2) + 1, end = get(zone + 2, 2);
    switch (below(c, 3)) {
    case 0:
        put(zone, 2, (get(zone, 2) + 1 + below(c, 2)) % 3);
        break;
    case 1:
        if (zones < 20 && start < end) {
            memmove(zone + 4, zone, 4 * (zones - k));
            put(zone + 2, 2, start + below(c, end - start));
            put(azimuth, 2, zones + 1);
        }
        break;
    default:
        if (k + 1 < zones)
            put(zone + 2, 2, start + below(c, get(zone + 6, 2) - start));
        break;
    }
}

size_t make_near_map(uint8_t *out, const uint8_t *map, uint32_t one_azimuth_in, struct chance *c)
{
    uint32_t elevations = (uint32_t)get(map + 4, 2);
    size_t n = make_map_header(out, elevations, c), at = 6;
    for (uint32_t i = 0; i < 360 * elevations; i++) {
        size_t size = 2 + 4 * get(map + at, 2);
        memcpy(out + n, map + at, size);
        if (below(c, one_azimuth_in) == 0)
            change_zone(out + n, c);
        n += 2 + 4 * get(out + n, 2);
        at += size;
    }
    return n;
}

size_t make_censor(uint16_t *out, uint32_t count, struct chance *c)
{
    static const uint16_t least[6] = { 0, 0, 0, 0, 1, 0 }, most[6] = { 511, 511, 360, 360, 5, 2 };
    out[0] = (uint16_t)count;
    for (uint32_t i = 0; i < 6 * count; i++)
        out[1 + i] = (uint16_t)(least[i % 6] + below(c, most[i % 6] - least[i % 6] + 1));
    return 1 + 6 * (size_t)count;
}
