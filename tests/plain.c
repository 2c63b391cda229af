#include "plain.h"

#include <string.h>

enum {
    FRAME_HEADER = 12,
    SESSION_LIMIT = 1048576,
    KINDS = 5,
    DATA = 2,
    MESSAGE_HEADER = 16,
    LEAST_SIZE = 8,
    LONG_SIZE = 65535, /* the size that says: the segment fields hold the length, in bytes */
    LEAST_LONG = 2 * LONG_SIZE,
    MOST_LONG = SESSION_LIMIT,
    MOST_SEGMENT_SIZE = 1208,
    MOST_MS = 86399999,
    MOST_SEGMENTS = 128,
    SEGMENT_DATA = 2400,
    LONGEST_BODY = 307200,
    LONGEST_RADIAL = MOST_LONG - MESSAGE_HEADER,
    RADIAL = 31,
    RADIAL_HEADER = 68,
    LEAST_BLOCKS = 4,
    MOST_BLOCKS = 9,
    CONSTANTS = 3,
    MOMENT_HEADER = 28,
    MOST_GATES = 1840,
    MOST_REGIONS = 25,
    REGION = 6,
    LAST_AZIMUTH = 359,
    AZIMUTHS = 360,
    MOST_ZONES = 20,
    LAST_KILOMETRE = 511,
    DIFFERENCE = 6
};

/* A bit for each type: 1 to 13, 15, 18, 31. */
#define PERMITTED_TYPES (UINT32_C(0x3FFE) | 1u << 15 | 1u << 18 | 1u << 31)

/* A function that common input does not reach: kept out of the way of the code that calls it. */
#define COLD __attribute__((noinline, cold))

#define NAME(a, b, c, d) ((uint32_t)(a) << 24 | (uint32_t)(b) << 16 | (uint32_t)(c) << 8 | (uint32_t)(d))

static inline uint32_t get16(const uint8_t *p)
{
    return (uint32_t)p[0] << 8 | p[1];
}

static inline uint32_t get32(const uint8_t *p)
{
    return (uint32_t)p[0] << 24 | (uint32_t)p[1] << 16 | (uint32_t)p[2] << 8 | p[3];
}

static inline void put16(uint8_t *p, uint32_t x)
{
    p[0] = (uint8_t)(x >> 8);
    p[1] = (uint8_t)x;
}

static inline void put32(uint8_t *p, uint32_t x)
{
    put16(p, x >> 16);
    put16(p + 2, x);
}

/* ---- The session frame ---- */

/* The checks of a frame over the bytes that are left. */
static inline uint32_t frame_refusal(const uint8_t *p, size_t left)
{
    if (left < FRAME_HEADER)
        return 1;
    if (get32(p) >= KINDS)
        return 2;
    if (get32(p + 8) > SESSION_LIMIT)
        return 3;
    if (get32(p + 8) > left - FRAME_HEADER)
        return 1;
    return 0;
}

plain_frame_answer plain_frame(const uint8_t *buf, size_t len, size_t place)
{
    plain_frame_answer r = { .next = place };
    if (place == len)
        return r;
    r.refusal = place > len ? 1 : frame_refusal(buf + place, len - place);
    if (r.refusal != 0)
        return r;
    const uint8_t *p = buf + place;
    r.found = 1;
    r.kind = get32(p);
    r.second = get32(p + 4);
    r.start = place + FRAME_HEADER;
    r.size = get32(p + 8);
    r.next = r.start + r.size;
    return r;
}

/* ---- The message header ---- */

static inline int permitted(uint32_t type)
{
    return type < 32 && (PERMITTED_TYPES >> type & 1) != 0;
}

static inline int segment_rule_broken(const plain_header_answer *h)
{
    if (h->segments - 1 >= MOST_SEGMENTS || h->number - 1 >= h->segments)
        return 1;
    return h->type == RADIAL ? h->segments != 1 : h->size > MOST_SEGMENT_SIZE;
}

static inline int time_broken(uint32_t date, uint32_t ms)
{
    return ms > MOST_MS || date == 0;
}

/* The short form: any size but LONG_SIZE. */
static inline uint32_t read_short_header(const uint8_t *m, size_t len, plain_header_answer *h)
{
    if (len < MESSAGE_HEADER)
        return 4;
    h->size = get16(m);
    h->channel = m[2];
    h->type = m[3];
    h->sequence = get16(m + 4);
    h->date = get16(m + 6);
    h->ms = get32(m + 8);
    h->segments = get16(m + 12);
    h->number = h->segments == 1 ? 1 : get16(m + 14); /* a lone segment's stored number means nothing (K1) */
    if (h->size >= LONG_SIZE)
        return 5;
    if (h->size < LEAST_SIZE || len != 2 * (size_t)h->size)
        return 5;
    if (!permitted(h->type))
        return 6;
    if (segment_rule_broken(h))
        return 7;
    return time_broken(h->date, h->ms) ? 8 : 0;
}

/* The checks of the long form, whose length is in the segment fields. Only a radial may have it. */
COLD static uint32_t long_refusal(const uint8_t *m, size_t len)
{
    uint32_t type = m[3], length = get32(m + 12);
    if (type != RADIAL)
        return permitted(type) ? 7 : 6;
    if (length < LEAST_LONG || length > MOST_LONG || length % 2 != 0 || length != len)
        return 5;
    return time_broken(get16(m + 6), get32(m + 8)) ? 8 : 0;
}

/* Both forms: the long one, which is one segment, is tried only where the short one is refused. */
static inline uint32_t read_header(const uint8_t *m, size_t len, plain_header_answer *h)
{
    uint32_t refusal = read_short_header(m, len, h);
    if (refusal == 5 && h->size == LONG_SIZE) {
        h->size = (uint32_t)(len / 2);
        h->segments = h->number = 1;
        return long_refusal(m, len);
    }
    return refusal;
}

COLD static plain_header_answer long_header(const uint8_t *m, size_t len)
{
    plain_header_answer h = { 0 };
    uint32_t refusal = read_header(m, len, &h);
    return refusal == 0 ? h : (plain_header_answer){ .refusal = refusal };
}

/* The long form has a function of its own here: read with the short one it would take that one's registers. */
plain_header_answer plain_header(const uint8_t *msg, size_t len)
{
    plain_header_answer h = { 0 };
    if (len >= MESSAGE_HEADER && get16(msg) == LONG_SIZE)
        return long_header(msg, len);
    uint32_t refusal = read_short_header(msg, len, &h);
    return refusal == 0 ? h : (plain_header_answer){ .refusal = refusal };
}

/* ---- Segment sets ---- */

struct set {
    plain_header_answer first, one; /* the first frame's header, and segment 1's */
    uint32_t met;
    size_t total;
    uint8_t seen[MOST_SEGMENTS];
    uint32_t size[MOST_SEGMENTS];
    const uint8_t *data[MOST_SEGMENTS];
};

static inline int agree(const plain_header_answer *a, const plain_header_answer *b)
{
    return a->channel == b->channel && a->type == b->type && a->date == b->date && a->ms == b->ms
           && a->segments == b->segments;
}

/* Takes the frame at p into the set. */
static inline uint32_t take_frame(struct set *s, const uint8_t *p, size_t left)
{
    uint32_t refusal = frame_refusal(p, left);
    if (refusal != 0)
        return refusal;
    if (get32(p) != DATA)
        return 9;
    plain_header_answer h = { 0 };
    refusal = read_header(p + FRAME_HEADER, get32(p + 8), &h);
    if (refusal != 0)
        return refusal;
    if (s->met == 0)
        s->first = h;
    if (!agree(&h, &s->first))
        return 10;
    uint32_t i = h.number - 1;
    if (s->seen[i])
        return 11;
    if (i == 0)
        s->one = h;
    s->seen[i] = 1;
    s->data[i] = p + FRAME_HEADER + MESSAGE_HEADER;
    s->size[i] = get32(p + 8) - MESSAGE_HEADER;
    s->total += s->size[i];
    s->met++;
    return 0;
}

static void join(const struct set *s, uint8_t *out)
{
    for (uint32_t i = 0; i < s->met; i++) {
        if (s->size[i] != 0)
            memcpy(out, s->data[i], s->size[i]);
        out += s->size[i];
    }
}

plain_set_answer plain_set(const uint8_t *buf, size_t len, uint8_t *out, size_t out_len)
{
    struct set s;
    s.met = 0;
    s.total = 0;
    memset(s.seen, 0, sizeof s.seen);
    for (size_t at = 0; at != len;) {
        uint32_t refusal = take_frame(&s, buf + at, len - at);
        if (refusal != 0)
            return (plain_set_answer){ .refusal = refusal };
        at += FRAME_HEADER + get32(buf + at + 8);
    }
    /* Each number is 1 to N and none came twice, so if there are N none is absent. */
    if (s.met == 0 || s.met != s.first.segments)
        return (plain_set_answer){ .refusal = 12 };
    if (s.total > out_len)
        return (plain_set_answer){ .refusal = 13 };
    join(&s, out);
    return (plain_set_answer){ 0,          s.one.size, s.one.channel,  s.one.type,   s.one.sequence,
                               s.one.date, s.one.ms,   s.one.segments, s.one.number, s.total };
}

/* ---- A damaged recording ---- */

/* The size of the data frame at p, or 0 where none stands whose header passes. */
static inline size_t kept_size(const uint8_t *p, size_t left)
{
    plain_header_answer h;
    if (frame_refusal(p, left) != 0 || get32(p) != DATA || read_header(p + FRAME_HEADER, get32(p + 8), &h) != 0)
        return 0;
    return FRAME_HEADER + get32(p + 8);
}

/* The first place from `at` on where a frame is kept, and its size; or the end, and 0. A frame begins with 0, 0, 0, 2,
 * so the next place that is tried is three bytes before the next 2. */
static inline size_t next_kept(const uint8_t *buf, size_t len, size_t at, size_t *size)
{
    while (len - at >= FRAME_HEADER + MESSAGE_HEADER) {
        if ((*size = kept_size(buf + at, len - at)) != 0)
            return at;
        const uint8_t *two = memchr(buf + at + 4, DATA, len - at - 4);
        if (two == NULL)
            break;
        at = (size_t)(two - buf) - 3;
    }
    *size = 0;
    return len;
}

/* The walk over a recording; frames and runs are written where there are outputs. */
static inline plain_salvage_answer walk(const uint8_t *buf, size_t len, uint8_t *out, uint64_t *runs)
{
    plain_salvage_answer r = { 0 };
    for (size_t at = 0, size, next; at < len; at = next + size) {
        next = next_kept(buf, len, at, &size);
        if (next != at && runs != NULL) {
            runs[2 * r.runs] = at;
            runs[2 * r.runs + 1] = next - at;
        }
        r.runs += next != at;
        if (size != 0 && out != NULL)
            memcpy(out + r.length, buf + next, size);
        r.kept += size != 0;
        r.length += size;
    }
    return r;
}

plain_salvage_answer plain_salvage(const uint8_t *buf, size_t len, uint8_t *out, size_t out_len, uint64_t *runs,
                                   size_t n)
{
    plain_salvage_answer counted = walk(buf, len, NULL, NULL);
    if (counted.length > out_len || 2 * counted.runs > n)
        return (plain_salvage_answer){ .refusal = 13 };
    return walk(buf, len, out, runs);
}

/* ---- Writing ---- */

static inline uint32_t write_refusal(uint8_t type, uint16_t date, uint32_t ms, size_t len)
{
    if (!permitted(type))
        return 6;
    if (time_broken(date, ms))
        return 8;
    if (len % 2 != 0)
        return 25;
    return len > (size_t)(type == RADIAL ? LONGEST_RADIAL : LONGEST_BODY) ? 26 : 0;
}

/* A frame's two headers, all but the sizes and the segment number. */
static void put_headers(uint8_t *p, uint8_t channel, uint8_t type, uint16_t sequence, uint16_t date, uint32_t ms,
                        uint32_t segments)
{
    put32(p, DATA);
    put32(p + 4, 0);
    p[14] = channel;
    p[15] = type;
    put16(p + 16, sequence);
    put16(p + 18, date);
    put32(p + 20, ms);
    put16(p + 24, segments);
}

/* Writes the long form over the short one in a frame's headers. */
static void put_long(uint8_t *p, uint32_t size)
{
    put16(p + 12, LONG_SIZE);
    put32(p + 24, size);
}

plain_written_answer plain_write(uint8_t channel, uint8_t type, uint16_t sequence, uint16_t date, uint32_t ms,
                                 const uint8_t *body, size_t len, uint8_t *out, size_t out_len)
{
    uint32_t refusal = write_refusal(type, date, ms, len);
    if (refusal != 0)
        return (plain_written_answer){ .refusal = refusal };
    size_t most = type == RADIAL ? LONGEST_RADIAL : SEGMENT_DATA;
    uint32_t segments = len <= most ? 1 : (uint32_t)((len + most - 1) / most);
    size_t headers = FRAME_HEADER + MESSAGE_HEADER;
    if (out_len < len + headers * segments)
        return (plain_written_answer){ .refusal = 13 };
    uint8_t head[FRAME_HEADER + MESSAGE_HEADER];
    put_headers(head, channel, type, sequence, date, ms, segments);
    uint8_t *first = out;
    for (size_t number = 1, at = 0; number <= segments; number++, at += most) {
        size_t size = len - at < most ? len - at : most;
        put32(head + 8, (uint32_t)size + MESSAGE_HEADER);
        put16(head + 12, ((uint32_t)size + MESSAGE_HEADER) / 2);
        put16(head + 26, (uint32_t)number);
        memcpy(out, head, headers);
        if (size != 0)
            memcpy(out + headers, body + at, size);
        out += headers + size;
    }
    if (type == RADIAL && len + MESSAGE_HEADER >= LEAST_LONG)
        put_long(first, (uint32_t)len + MESSAGE_HEADER);
    return (plain_written_answer){ 0, len + headers * segments };
}

/* ---- The radial ---- */

struct blocks {
    uint32_t count;
    uint32_t place[MOST_BLOCKS];
};

/* A bit for each permitted name of a moment, 0 for any other. */
static inline uint32_t moment_bit(uint32_t name)
{
    switch (name) {
    case NAME('D', 'R', 'E', 'F'): return 1;
    case NAME('D', 'V', 'E', 'L'): return 2;
    case NAME('D', 'S', 'W', ' '): return 4;
    case NAME('D', 'Z', 'D', 'R'): return 8;
    case NAME('D', 'P', 'H', 'I'): return 16;
    case NAME('D', 'R', 'H', 'O'): return 32;
    default: return 0;
    }
}

static inline uint32_t moment_size(const uint8_t *m)
{
    return MOMENT_HEADER + get16(m + 8) * (m[19] / 8);
}

/* The checks of constant block k at its pointer p; gives the block's end. */
static inline uint32_t constant_refusal(const uint8_t *body, uint32_t k, uint32_t p, uint32_t radial_length,
                                        uint32_t *end)
{
    static const uint32_t names[CONSTANTS]
        = { NAME('R', 'V', 'O', 'L'), NAME('R', 'E', 'L', 'V'), NAME('R', 'R', 'A', 'D') };
    static const uint32_t least[CONSTANTS] = { 44, 12, 20 };
    if (p < *end || p > radial_length - 6)
        return 18;
    if (get32(body + p) != names[k])
        return 19;
    uint32_t size = get16(body + p + 4);
    if (size < least[k] || size > radial_length - p)
        return 20;
    *end = p + size;
    return 0;
}

/* The checks of a moment at its pointer p; gives the block's end and the names seen. */
static inline uint32_t moment_refusal(const uint8_t *body, uint32_t p, uint32_t radial_length, uint32_t *end,
                                      uint32_t *seen)
{
    if (p < *end || p > radial_length - MOMENT_HEADER)
        return 18;
    const uint8_t *m = body + p;
    uint32_t bit = moment_bit(get32(m));
    if (bit == 0 || (*seen & bit) != 0)
        return 19;
    if (get16(m + 8) > MOST_GATES || (m[19] != 8 && m[19] != 16) || moment_size(m) > radial_length - p)
        return 20;
    *end = p + moment_size(m);
    *seen |= bit;
    return 0;
}

static inline uint32_t radial_refusal(const uint8_t *body, size_t len, struct blocks *b)
{
    if (len < RADIAL_HEADER)
        return 14;
    if (body[16] != 0)
        return 15;
    uint32_t radial_length = get16(body + 18);
    if (radial_length < RADIAL_HEADER || radial_length > len)
        return 16;
    b->count = get16(body + 30);
    if (b->count < LEAST_BLOCKS || b->count > MOST_BLOCKS)
        return 17;
    uint32_t end = RADIAL_HEADER, seen = 0, refusal = 0;
    for (uint32_t k = 0; k < CONSTANTS && refusal == 0; k++) {
        b->place[k] = get32(body + 32 + 4 * k);
        refusal = constant_refusal(body, k, b->place[k], radial_length, &end);
    }
    for (uint32_t k = CONSTANTS; k < b->count && refusal == 0; k++) {
        b->place[k] = get32(body + 32 + 4 * k);
        refusal = moment_refusal(body, b->place[k], radial_length, &end, &seen);
    }
    return refusal;
}

plain_radial_answer plain_radial(const uint8_t *body, size_t len)
{
    struct blocks b;
    uint32_t refusal = radial_refusal(body, len, &b);
    if (refusal != 0)
        return (plain_radial_answer){ .refusal = refusal };
    return (plain_radial_answer){
        .station = get32(body),
        .time = get32(body + 4),
        .date = get16(body + 8),
        .azimuth_number = get16(body + 10),
        .azimuth = get32(body + 12),
        .radial_length = get16(body + 18),
        .spacing = body[20],
        .status = body[21],
        .elevation_number = body[22],
        .sector = body[23],
        .elevation = get32(body + 24),
        .blanking = body[28],
        .indexing = body[29],
        .blocks = b.count,
    };
}

plain_block_answer plain_block(const uint8_t *body, size_t len, uint32_t block)
{
    struct blocks b;
    plain_block_answer r = { .refusal = radial_refusal(body, len, &b) };
    if (r.refusal != 0 || block == 0 || block > b.count)
        return r;
    r.start = b.place[block - 1];
    const uint8_t *m = body + r.start;
    r.found = 1;
    r.name = get32(m);
    if (block <= CONSTANTS) {
        r.size = get16(m + 4);
        return r;
    }
    r.reserved = get32(m + 4);
    r.gates = get16(m + 8);
    r.first = get16(m + 10);
    r.interval = get16(m + 12);
    r.overlay = get16(m + 14);
    r.noise = get16(m + 16);
    r.flags = m[18];
    r.word = m[19];
    r.scale = get32(m + 20);
    r.offset = get32(m + 24);
    r.size = moment_size(m);
    return r;
}

/* Finds a moment after the radial's checks; its place in the body. */
static inline uint32_t find_moment(const uint8_t *body, size_t len, uint32_t name, uint32_t *place)
{
    struct blocks b;
    uint32_t refusal = radial_refusal(body, len, &b);
    if (refusal != 0)
        return refusal;
    for (uint32_t k = CONSTANTS; k < b.count; k++) {
        *place = b.place[k];
        if (get32(body + *place) == name)
            return 0;
    }
    return 21;
}

plain_gates_answer plain_gates(const uint8_t *body, size_t len, uint32_t name)
{
    uint32_t place;
    uint32_t refusal = find_moment(body, len, name, &place);
    if (refusal != 0)
        return (plain_gates_answer){ .refusal = refusal };
    const uint8_t *m = body + place;
    return (plain_gates_answer){
        .gates = get16(m + 8),
        .word = m[19],
        .scale = get32(m + 20),
        .offset = get32(m + 24),
        .first = get16(m + 10),
        .interval = get16(m + 12),
        .start = place + MOMENT_HEADER,
        .size = moment_size(m) - MOMENT_HEADER,
    };
}

/* ---- The gate value ---- */

static inline float float_of(uint32_t bits)
{
    float f;
    memcpy(&f, &bits, sizeof f);
    return f;
}

/* Builds an answer as it is returned, 64 bits and a float. Built member by member, gcc would put it through memory. */
static inline plain_gate_answer gate_answer(uint64_t refusal, uint64_t kind, float value)
{
    struct {
        uint64_t refusal_and_kind;
        float value;
    } parts = { refusal | kind << 32, value };
    plain_gate_answer r;
    memcpy(&r, &parts, sizeof r);
    return r;
}

static inline plain_gate_answer value(uint32_t code, uint32_t scale, uint32_t offset)
{
    /* Bits from 1 to below those of infinity are the finite floats above 0. */
    if (scale - 1 >= UINT32_C(0x7F7FFFFF) || (offset & UINT32_C(0x7F800000)) == UINT32_C(0x7F800000))
        return gate_answer(22, 0, 0);
    if (code <= 1)
        return gate_answer(0, 1 + code, 0);
    return gate_answer(0, 0, ((float)code - float_of(offset)) / float_of(scale));
}

plain_gate_answer plain_value(uint16_t code, uint32_t scale, uint32_t offset)
{
    return value(code, scale, offset);
}

plain_gate_answer plain_gate(const uint8_t *body, size_t len, uint32_t name, uint64_t gate)
{
    uint32_t place;
    uint32_t refusal = find_moment(body, len, name, &place);
    if (refusal != 0)
        return gate_answer(refusal, 0, 0);
    const uint8_t *m = body + place;
    if (gate >= get16(m + 8))
        return gate_answer(21, 0, 0);
    const uint8_t *gates = m + MOMENT_HEADER;
    uint32_t code = m[19] == 8 ? gates[gate] : get16(gates + 2 * gate);
    return value(code, get32(m + 20), get32(m + 24));
}

/* ---- Requests ---- */

static inline uint32_t request_refusal(uint32_t code)
{
    switch (code) {
    case 129: case 130: case 132: case 136: case 144: case 160: return 0;
    default: return 24;
    }
}

plain_request_answer plain_request(const uint8_t *body, size_t len)
{
    if (len != 2)
        return (plain_request_answer){ .refusal = 23 };
    uint32_t code = get16(body), refusal = request_refusal(code);
    return (plain_request_answer){ refusal, refusal == 0 ? code : 0 };
}

plain_written_answer plain_write_request(const uint16_t *list, size_t n, uint8_t *out, size_t out_len)
{
    if (n != 1)
        return (plain_written_answer){ .refusal = 23 };
    if (request_refusal(list[0]) != 0)
        return (plain_written_answer){ .refusal = 24 };
    if (out_len < 2)
        return (plain_written_answer){ .refusal = 13 };
    put16(out, list[0]);
    return (plain_written_answer){ 0, 2 };
}

/* ---- Censor zones ---- */

static inline int region_in_range(const uint16_t *r)
{
    return r[0] <= 511 && r[1] <= 511 && r[2] <= 360 && r[3] <= 360 && r[4] >= 1 && r[4] <= 5 && r[5] <= 2;
}

static uint32_t regions_refusal(const uint16_t *regions, uint32_t count)
{
    for (uint32_t i = 0; i < count; i++)
        if (!region_in_range(regions + REGION * i))
            return 24;
    return 0;
}

plain_censor_answer plain_censor(const uint8_t *body, size_t len)
{
    plain_censor_answer r = { 0 };
    if (len < 2) {
        r.refusal = 23;
        return r;
    }
    uint32_t count = get16(body);
    r.refusal = count > MOST_REGIONS ? 24 : len != 2 + 2 * REGION * count ? 23 : 0;
    if (r.refusal != 0)
        return r;
    for (uint32_t i = 0; i < REGION * count; i++)
        r.regions[i] = (uint16_t)get16(body + 2 + 2 * i);
    if (regions_refusal(r.regions, count) != 0)
        return (plain_censor_answer){ .refusal = 24 };
    r.count = count;
    return r;
}

plain_written_answer plain_write_censor(const uint16_t *list, size_t n, uint8_t *out, size_t out_len)
{
    if (n == 0)
        return (plain_written_answer){ .refusal = 23 };
    uint32_t count = list[0];
    if (count > MOST_REGIONS)
        return (plain_written_answer){ .refusal = 24 };
    if (n != 1 + REGION * count)
        return (plain_written_answer){ .refusal = 23 };
    if (regions_refusal(list + 1, count) != 0)
        return (plain_written_answer){ .refusal = 24 };
    if (out_len < 2 * n)
        return (plain_written_answer){ .refusal = 13 };
    for (size_t i = 0; i < n; i++)
        put16(out + 2 * i, list[i]);
    return (plain_written_answer){ 0, 2 * n };
}

/* ---- The filter map ---- */

/* The zones of an azimuth that are all inside: every breach is 24, so their order doesn't matter. Code and end of a zone
 * are fetched at once. */
static inline int zones_broken(const uint8_t *p, uint32_t zones)
{
    uint32_t least = 0;
    for (const uint8_t *end = p + 4 * zones; p != end; p += 4) {
        uint32_t zone = get32(p), last = zone & 0xFFFF;
        if ((zone > 0x2FFFF) | (last < least))
            return 1;
        least = last + 1;
    }
    /* Ends that rise to a last one of 511 are all at most 511. */
    return least != LAST_KILOMETRE + 1;
}

/* The zones of an azimuth that is cut off: 24 for a field that is there and out of range, else 23. */
static uint32_t cut_zones_refusal(const uint8_t *p, size_t left)
{
    int32_t before = -1;
    for (; left >= 4; p += 4, left -= 4) {
        int32_t end = (int32_t)get16(p + 2);
        if (get16(p) > 2 || end > LAST_KILOMETRE || end <= before)
            return 24;
        before = end;
    }
    return left >= 2 && get16(p) > 2 ? 24 : 23;
}

static inline uint32_t map_header_refusal(const uint8_t *body, size_t len)
{
    if (len < 2)
        return 23;
    if (get16(body) == 0)
        return 24;
    if (len < 4)
        return 23;
    if (get16(body + 2) > 1440)
        return 24;
    if (len < 6)
        return 23;
    return get16(body + 4) - 1 >= 5 ? 24 : 0;
}

/* The whole map's checks; the place of the azimuth that is wanted, counted from 0 over all elevations. */
static inline uint32_t map_refusal(const uint8_t *body, size_t len, uint64_t wanted, const uint8_t **azimuth)
{
    uint32_t refusal = map_header_refusal(body, len);
    if (refusal != 0)
        return refusal;
    const uint8_t *p = body + 6;
    size_t left = len - 6;
    uint32_t azimuths = AZIMUTHS * get16(body + 4);
    for (uint32_t i = 0; i < azimuths; i++) {
        if (left < 2)
            return 23;
        uint32_t zones = get16(p);
        if (zones - 1 >= MOST_ZONES)
            return 24;
        if (i == wanted)
            *azimuth = p;
        p += 2;
        left -= 2;
        if (left < 4 * zones)
            return cut_zones_refusal(p, left);
        if (zones_broken(p, zones))
            return 24;
        p += 4 * zones;
        left -= 4 * zones;
    }
    return left != 0 ? 23 : 0;
}

plain_map_answer plain_map(const uint8_t *body, size_t len)
{
    const uint8_t *azimuth;
    uint32_t refusal = map_refusal(body, len, UINT64_MAX, &azimuth);
    if (refusal != 0)
        return (plain_map_answer){ .refusal = refusal };
    return (plain_map_answer){ 0, get16(body), get16(body + 2), get16(body + 4) };
}

plain_map_code_answer plain_map_code(const uint8_t *body, size_t len, uint64_t elevation, uint64_t azimuth,
                                     uint64_t kilometre)
{
    int asked = elevation >= 1 && elevation <= 5 && azimuth <= LAST_AZIMUTH && kilometre <= LAST_KILOMETRE;
    const uint8_t *p = NULL;
    uint64_t wanted = asked ? (elevation - 1) * AZIMUTHS + azimuth : UINT64_MAX;
    uint32_t refusal = map_refusal(body, len, wanted, &p);
    if (refusal != 0)
        return (plain_map_code_answer){ .refusal = refusal };
    if (p == NULL)
        return (plain_map_code_answer){ .refusal = 21 };
    p += 2;
    while (get16(p + 2) < kilometre)
        p += 4;
    return (plain_map_code_answer){ 0, get16(p) };
}

/* ---- Two filter maps ---- */

static inline void put_difference(uint16_t *d, uint32_t elevation, uint32_t azimuth, uint32_t first, uint32_t last,
                                  uint32_t old_code, uint32_t new_code)
{
    d[0] = (uint16_t)elevation;
    d[1] = (uint16_t)azimuth;
    d[2] = (uint16_t)first;
    d[3] = (uint16_t)last;
    d[4] = (uint16_t)old_code;
    d[5] = (uint16_t)new_code;
}

/* The differences of an azimuth, by its zones in both maps; listed where there is an output. Each step goes to the end
 * of a zone, whichever comes first; a difference that goes on there is written again, with its new last kilometre. */
static inline uint32_t azimuth_differences(const uint8_t *p, const uint8_t *q, uint32_t elevation, uint32_t azimuth,
                                           uint16_t *out)
{
    uint32_t count = 0, begun = 0, before = 0; /* equal codes, so the first difference continues none */
    for (uint32_t first = 0, last; first <= LAST_KILOMETRE; first = last + 1) {
        uint32_t old_code = get16(p), old_end = get16(p + 2), new_code = get16(q), new_end = get16(q + 2);
        uint32_t codes = old_code << 16 | new_code;
        last = old_end < new_end ? old_end : new_end;
        if (codes != before)
            begun = first;
        count += (codes != before) & (old_code != new_code);
        if (out != NULL && old_code != new_code)
            put_difference(out + DIFFERENCE * (count - 1), elevation, azimuth, begun, last, old_code, new_code);
        before = codes;
        p += 4 * (old_end <= new_end);
        q += 4 * (new_end <= old_end);
    }
    return count;
}

/* The differences of two maps that are accepted, listed where there is an output. */
static inline size_t map_differences(const uint8_t *old_map, const uint8_t *new_map, uint32_t elevations, uint16_t *out)
{
    const uint8_t *p = old_map + 6, *q = new_map + 6;
    size_t count = 0;
    for (uint32_t i = 0; i < AZIMUTHS * elevations; i++) {
        size_t old_size = 2 + 4 * get16(p), new_size = 2 + 4 * get16(q);
        /* Of two maps of one site most azimuths are the same byte for byte. */
        if (old_size != new_size || memcmp(p, q, old_size) != 0)
            count += azimuth_differences(p + 2, q + 2, 1 + i / AZIMUTHS, i % AZIMUTHS,
                                         out == NULL ? NULL : out + DIFFERENCE * count);
        p += old_size;
        q += new_size;
    }
    return count;
}

plain_comparison_answer plain_compare_maps(const uint8_t *old_map, size_t old_len, const uint8_t *new_map,
                                           size_t new_len, uint16_t *out, size_t n)
{
    plain_map_answer old = plain_map(old_map, old_len);
    if (old.refusal != 0)
        return (plain_comparison_answer){ .refusal = old.refusal };
    plain_map_answer new = plain_map(new_map, new_len);
    if (new.refusal != 0)
        return (plain_comparison_answer){ .refusal = new.refusal };
    uint32_t elevations = old.elevations < new.elevations ? old.elevations : new.elevations;
    size_t count = map_differences(old_map, new_map, elevations, NULL);
    if (n < DIFFERENCE * count)
        return (plain_comparison_answer){ .refusal = 13 };
    map_differences(old_map, new_map, elevations, out);
    return (plain_comparison_answer){ 0, old.elevations, new.elevations, (uint32_t)count };
}
