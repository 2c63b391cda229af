/*
 * Asks libulm and the plain implementation the same questions and compares every member of every answer and every
 * lent byte. First the edges, the same in each run: each field of each message at both sides of each limit, alone and in
 * pairs, and arguments at their types' ends. Then chance from a seed: valid messages, and damaged ones.
 *
 *     differential [inputs N | seconds S] [seed X] [heap] [answers]
 *
 * N inputs by chance, or S seconds in all (the edges are always asked); by default 500,000 inputs, from seed 1.
 * `heap` lends each slice as a heap block of its own, for valgrind; `answers` writes how often each entry gave each answer.
 */
#include <inttypes.h>
#include <stdio.h>
#include <stdlib.h>
#include <string.h>
#include <time.h>

#include "bytewise.h"
#include "compare.h"
#include "kilometres.h"
#include "make.h"

#define COUNT(a) (sizeof(a) / sizeof *(a))

static struct chance dice;

static uint64_t pick(uint64_t n)
{
    return below(&dice, n);
}

static int one_in(uint64_t n)
{
    return pick(n) == 0;
}

#define ONE_OF(list) ((list)[pick(COUNT(list))])

/* ---- Patches: what is changed in a message ---- */

/* A number put at a place, or, with width 0, another length. */
struct patch {
    size_t at;
    unsigned wide;
    uint64_t value;
};

enum { MOST_PATCHES = 16384 };

static struct patch patches[MOST_PATCHES];
static size_t patch_count;

static void patch(size_t at, unsigned wide, uint64_t value)
{
    if (patch_count < MOST_PATCHES)
        patches[patch_count++] = (struct patch){ at, wide, value };
}

/* The limit of a field and its neighbours. */
static void limit(size_t at, unsigned wide, uint64_t value)
{
    patch(at, wide, value - 1);
    patch(at, wide, value);
    patch(at, wide, value + 1);
}

static void all_ones(size_t at, unsigned wide)
{
    patch(at, wide, UINT64_MAX);
}

static void cut(size_t length)
{
    patch(0, 0, length);
}

/* The message that is asked, changed in place. */
static uint8_t message[MOST_BYTES];
static size_t message_size;

static void apply(const struct patch *p)
{
    if (p->wide == 0) {
        if (p->value > MOST_BYTES)
            return;
        for (size_t i = message_size; i < p->value; i++)
            message[i] = (uint8_t)i;
        message_size = p->value;
    } else if (p->at <= message_size && p->wide <= message_size - p->at) {
        put(message + p->at, p->wide, p->value);
    }
}

static void start_from(const uint8_t *bytes, size_t n)
{
    memcpy(message, bytes, n);
    message_size = n;
}

static void ask_patched(const uint8_t *bytes, size_t n, size_t i, size_t k, void (*ask)(void))
{
    start_from(bytes, n);
    apply(&patches[i]);
    apply(&patches[k]);
    ask();
}

/* Asks of the message unchanged, of every patch alone, and of every pair, or of some by chance where they are many. */
static void each_patch(const uint8_t *bytes, size_t n, size_t most_pairs, void (*ask)(void))
{
    size_t count = patch_count;
    start_from(bytes, n);
    ask();
    for (size_t i = 0; i < count; i++)
        ask_patched(bytes, n, i, i, ask);
    if (count * count <= most_pairs)
        for (size_t i = 0; i < count * count; i++)
            ask_patched(bytes, n, i / count, i % count, ask);
    else
        for (size_t left = most_pairs; left > 0; left--)
            ask_patched(bytes, n, pick(count), pick(count), ask);
}

/* Damages the message by chance: patches, and bytes anywhere. */
static void damage(void)
{
    if (one_in(3))
        return;
    for (uint64_t left = 1 + pick(3); left > 0 && patch_count > 0; left--)
        apply(&patches[pick(patch_count)]);
    if (one_in(8) && message_size > 0)
        for (uint64_t left = 1 + pick(4); left > 0; left--)
            message[pick(message_size)] = (uint8_t)pick(256);
    if (one_in(16))
        message_size = pick(message_size + 1);
}

/* The lengths of a message in a header's long form, in bytes. */
enum { LONG_SIZE = 65535, LEAST_LONG = 131070, MOST_LONG = 1048576 };

static size_t any_long(void)
{
    switch (pick(4)) {
    case 0: return LEAST_LONG + 2 * pick(4);
    case 1: return MOST_LONG - 2 * pick(4);
    default: return LEAST_LONG + 2 * pick((MOST_LONG - LEAST_LONG) / 2 + 1);
    }
}

static const uint8_t *any_body(size_t n)
{
    static uint8_t bytes[MOST_BYTES];
    static int filled;
    if (!filled)
        fill(&dice, bytes, sizeof bytes);
    filled = 1;
    return n == 0 ? NULL : bytes + pick(MOST_BYTES - n);
}

/* ---- Frames ---- */

static const uint64_t far_places[] = { UINT64_MAX, UINT64_MAX - 1, UINT64_MAX - 11, UINT64_MAX - 12, UINT64_MAX / 2,
                                       UINT64_MAX / 2 + 1, UINT32_MAX, UINT64_C(1) << 32 };

static void patches_of_frame(size_t at, size_t body)
{
    for (uint64_t kind = 0; kind <= 6; kind++)
        patch(at, 4, kind);
    patch(at, 4, 256);
    all_ones(at, 4);
    all_ones(at + 4, 4);
    limit(at + 8, 4, body);
    limit(at + 8, 4, 131068);
    limit(at + 8, 4, MOST_LONG);
    all_ones(at + 8, 4);
    patch(at + 8, 4, 0);
    patch(at + 8, 4, UINT32_MAX - 11);
}

static void ask_frame_at_0(void)
{
    compare_frame(message, message_size, 0);
}

static void frame_edges(void)
{
    uint8_t body[40] = { 0 }, bytes[64];
    size_t n = make_frame(bytes, 2, 7, body, 20);
    for (size_t length = 0; length <= n; length++)
        for (size_t place = 0; place <= length + 2; place++)
            compare_frame(bytes, length, place);
    for (size_t i = 0; i < COUNT(far_places); i++) {
        compare_frame(bytes, n, far_places[i]);
        compare_frame(NULL, 0, far_places[i]);
    }
    compare_frame(NULL, 0, 0);
    patch_count = 0;
    patches_of_frame(0, 20);
    for (size_t length = 0; length <= n + 1; length++)
        cut(length);
    each_patch(bytes, n, SIZE_MAX, ask_frame_at_0);
}

/* A body at the limit, and one byte more and less of it and of the buffer; then only its head, of every kind. */
static void long_frame_edges_at(uint8_t *bytes, size_t most)
{
    for (size_t size = most - 2; size <= most + 2; size++) {
        put(bytes, 4, 2);
        put(bytes + 8, 4, size);
        for (size_t length = size + 10; length <= size + 14; length++)
            compare_frame(bytes, length, 0);
        for (uint32_t kind = 0; kind <= 5; kind++) {
            put(bytes, 4, kind);
            for (size_t length = 11; length <= 14; length++)
                compare_frame(bytes, length, 0);
        }
    }
}

/* By the limit of a frame and by that of a header's short form; and a frame after the longest one. */
static void long_frame_edges(void)
{
    static uint8_t bytes[12 + MOST_LONG + 64];
    fill(&dice, bytes, sizeof bytes);
    long_frame_edges_at(bytes, 131068);
    long_frame_edges_at(bytes, MOST_LONG);
    for (uint32_t kind = 0; kind <= 5; kind++) {
        size_t next = make_frame(bytes, kind, 7, bytes + 12, MOST_LONG);
        size_t n = next + make_frame(bytes + next, 4, 0, NULL, 0);
        compare_frame(bytes, n, 0);
        for (size_t place = next - 1; place <= next + 1; place++)
            compare_frame(bytes, n, place);
    }
}

static void frame_by_chance(void)
{
    size_t starts[5], count = 0, n = 0;
    while (count < 1 + pick(4)) {
        uint8_t body[96];
        size_t size = pick(sizeof body);
        fill(&dice, body, size);
        starts[count++] = n;
        n += make_frame(message + n, (uint32_t)pick(5), (uint32_t)chance(&dice), body, size);
    }
    starts[count] = n;
    message_size = n;
    size_t i = pick(count + 1), place = starts[i];
    patch_count = 0;
    if (i < count)
        patches_of_frame(place, get(message + place + 8, 4));
    damage();
    if (one_in(16))
        place = one_in(2) ? pick(n + 20) : ONE_OF(far_places);
    compare_frame(message, message_size, place);
}

/* ---- Headers ---- */

static const uint32_t types[] = { 0, 1, 2, 8, 9, 13, 14, 15, 16, 17, 18, 19, 30, 31, 32, 47, 63, 255 };
static const uint32_t permitted[] = { 1, 2, 3, 4, 5, 6, 7, 8, 9, 10, 11, 12, 13, 15, 18, 31 };

/* Patches of a message header at a place, in a message of that many bytes. */
static void patches_of_header(size_t at, size_t bytes)
{
    limit(at, 2, bytes / 2);
    limit(at, 2, 8);
    limit(at, 2, 1208);
    limit(at, 2, 65534);
    patch(at, 2, bytes);
    all_ones(at + 2, 1);
    for (size_t i = 0; i < COUNT(types); i++)
        patch(at + 3, 1, types[i]);
    all_ones(at + 4, 2);
    limit(at + 6, 2, 1);
    all_ones(at + 6, 2);
    limit(at + 8, 4, 86399999);
    all_ones(at + 8, 4);
    for (uint64_t n = 0; n <= 3; n++) {
        patch(at + 12, 2, n);
        patch(at + 14, 2, n);
    }
    limit(at + 12, 2, 128);
    limit(at + 14, 2, 128);
    patch(at + 12, 2, 256);
    patch(at + 14, 2, 257);
    all_ones(at + 12, 2);
    all_ones(at + 14, 2);
    limit(at + 12, 4, bytes);
    limit(at + 12, 4, LEAST_LONG);
    limit(at + 12, 4, MOST_LONG);
}

static void ask_header(void)
{
    compare_header(message, message_size);
}

/* A lone segment's number: half of the time as written, else any number. */
static uint32_t any_number(void)
{
    return one_in(2) ? 1 : (uint32_t)pick(65536);
}

static struct make_segment any_segment(void)
{
    struct make_segment s = { .channel = (uint32_t)pick(256),
                              .type = ONE_OF(permitted),
                              .sequence = (uint32_t)pick(65536),
                              .date = 1 + (uint32_t)pick(65535),
                              .ms = (uint32_t)pick(86400000),
                              .segments = 1 };
    if (s.type != 31)
        s.segments = one_in(4) ? 1 + (uint32_t)pick(128) : 1 + (uint32_t)pick(4);
    s.number = s.segments == 1 ? any_number() : 1 + (uint32_t)pick(s.segments);
    return s;
}

static void header_edges_at(uint32_t segments, size_t data)
{
    static uint8_t bytes[131072 + 28];
    struct make_segment s = { 3, 9, 5, 16000, 1000, segments, segments };
    size_t n = make_segment(bytes, &s, bytes + 28, data) - 12;
    patch_count = 0;
    patches_of_header(0, n);
    for (size_t length = n < 18 ? 0 : n - 18; length <= n + 2; length++)
        cut(length);
    each_patch(bytes + 12, n, data > 100 ? 400 : SIZE_MAX, ask_header);
}

static void header_edges(void)
{
    static uint8_t bytes[12 + 2 * 65535];
    header_edges_at(1, 2);
    header_edges_at(2, 2);
    header_edges_at(2, 2400);
    header_edges_at(2, 2402);
    compare_header(NULL, 0);
    struct make_segment s = { 0, 0, 0, 1, 0, 1, 1 };
    for (s.type = 0; s.type <= 255; s.type++)
        compare_header(bytes + 12, make_segment(bytes, &s, NULL, 0) - 12);
    /* The longest messages, with the length that fits. */
    for (size_t size = 65530; size <= 65535; size++)
        for (s.type = 30; s.type <= 32; s.type++) {
            make_segment(bytes, &s, NULL, 0);
            put(bytes + 12, 2, size);
            compare_header(bytes + 12, 2 * size);
        }
}

/* Numbers of every size where N is 1, 2 and 0: alone, as sets of one frame, with and without room, and of two, and as
 * recordings of one frame. */
static void lone_number_edges(void)
{
    static const uint32_t lone_types[] = { 9, 31 };
    uint8_t bytes[64], body[2] = { 0, 129 };
    for (size_t i = 0; i < COUNT(lone_types); i++)
        for (uint32_t segments = 0; segments <= 2; segments++)
            for (uint32_t number = 0; number <= 65535; number += number < 300 || number > 65500 ? 1 : 163) {
                struct make_segment s = { 3, lone_types[i], 5, 16000, 1000, segments, number };
                size_t n = make_segment(bytes, &s, body, 2);
                compare_header(bytes + 12, n - 12);
                compare_set(bytes, n, number % 3);
                compare_salvage(bytes, n, n, 2);
                s.number = 1;
                compare_set(bytes, n + make_segment(bytes + n, &s, body, 2), 4);
            }
}

/* A message of up to MOST_BYTES whose size says that it has the long form and whose segment fields hold some length. */
static const uint8_t *long_message(uint32_t type, uint32_t date, uint32_t ms, uint32_t length)
{
    static uint8_t bytes[MOST_BYTES];
    put(bytes, 2, LONG_SIZE);
    put(bytes + 2, 1, pick(256));
    put(bytes + 3, 1, type);
    put(bytes + 4, 2, pick(65536));
    put(bytes + 6, 2, date);
    put(bytes + 8, 4, ms);
    put(bytes + 12, 4, length);
    return bytes;
}

/* Lengths in the segment fields: by each limit, odd ones, with the halves changed about (16 is one too), in halfwords,
 * with other bits, and what the fields of a short header would be. */
static const uint32_t long_lengths[] = { 0,          1,          16,         17,         65535,      65536,
                                         65537,      65539,      131066,     131067,     131068,     131069,
                                         131070,     131071,     131072,     131073,     131200,     262140,
                                         524288,     1048573,    1048574,    1048575,    1048576,    1048577,
                                         1048578,    2097152,    8388737,    0x7FFFFFFF, 0x80000000, 0x8001FFFE,
                                         0x8101FFFE, 0xFFFE0001, 0xFFFFFFFE, UINT32_MAX };

/* Each of these, in messages that are as long, nearly so, longer by a high bit, and otherwise. */
static void long_length_edges(uint32_t type)
{
    static const size_t sizes[] = { 15, 16, 17, 18, 131068, 131070, 131072, 1048574, 1048576, 1048578 };
    static const size_t bits[] = { 65536, 131072, 1048576 };
    for (size_t i = 0; i < COUNT(long_lengths); i++) {
        size_t length = long_lengths[i];
        const uint8_t *bytes = long_message(type, 1, 0, long_lengths[i]);
        for (size_t k = 0; k < COUNT(sizes); k++)
            compare_header(bytes, sizes[k]);
        for (size_t n = length < 18 ? 16 : length - 2; n <= length + 2 && n <= MOST_BYTES; n++)
            compare_header(bytes, n);
        for (size_t k = 0; k < COUNT(bits) && length + bits[k] <= MOST_BYTES; k++)
            compare_header(bytes, length + bits[k]);
    }
}

/* Every type; date and time at their limits, with a length that is right and with others; and N = 1 with every kind of
 * number, which the long form does not make free. */
static void long_header_edges(void)
{
    static const uint32_t some_types[] = { 31, 2, 14 }, lengths[] = { LEAST_LONG, 131071, MOST_LONG };
    static const uint32_t dates[] = { 0, 1, 65535 }, times[] = { 0, 86399999, 86400000, UINT32_MAX };
    for (uint32_t type = 0; type <= 255; type++) {
        compare_header(long_message(type, 1, 0, 16), 16);
        compare_header(long_message(type, (uint32_t)pick(2), 0, LEAST_LONG), 16);
        compare_header(long_message(type, (uint32_t)pick(2), 0, LEAST_LONG), LEAST_LONG);
    }
    for (size_t t = 0; t < COUNT(some_types); t++) {
        long_length_edges(some_types[t]);
        for (size_t i = 0; i < COUNT(dates) * COUNT(times) * COUNT(lengths); i++) {
            uint32_t length = lengths[i / COUNT(times) / COUNT(dates)];
            uint32_t date = dates[i / COUNT(times) % COUNT(dates)];
            compare_header(long_message(some_types[t], date, times[i % COUNT(times)], length), length);
        }
    }
    for (uint32_t number = 0; number <= 65535; number += number < 300 || number > 65500 ? 1 : 163) {
        compare_header(long_message(31, 1, 0, 65536 + number), 65536 + number);
        compare_header(long_message(31, 1, 0, 65536 + number), LEAST_LONG);
    }
}

/* A message of n bytes with its header, or its length, damaged or not. */
static void ask_header_near(const uint8_t *bytes, size_t n)
{
    start_from(bytes, n);
    patch_count = 0;
    patches_of_header(0, n);
    cut(n - 1);
    cut(n + 1);
    cut(n + 2);
    damage();
    ask_header();
}

static void long_header_by_chance(void)
{
    size_t n = any_long();
    ask_header_near(long_message(31, 1 + (uint32_t)pick(65535), (uint32_t)pick(86400000), (uint32_t)n), n);
}

static void header_by_chance(void)
{
    if (one_in(200)) {
        long_header_by_chance();
        return;
    }
    struct make_segment s = any_segment();
    size_t data = one_in(8) ? 2 * pick(s.type == 31 ? 2000 : 1202) : 2 * pick(20);
    uint8_t bytes[28 + 4096];
    fill(&dice, bytes, 28 + data);
    size_t n = make_segment(bytes, &s, bytes + 28, data) - 12;
    ask_header_near(bytes + 12, n);
}

/* ---- Sets ---- */

static size_t set_room; /* lent to a set's answer */

static void ask_set(void)
{
    compare_set(message, message_size, set_room);
}

/* The set that is the message: its frames' places, its size and that of its data. */
static struct {
    size_t n, total, frames;
    size_t start[128];
} set;

enum { BY_CHANCE = -1 };

static void add_segment(const struct make_segment *m, int data)
{
    uint8_t bytes[2400];
    size_t size = data == BY_CHANCE ? 2 * (one_in(8) ? pick(1201) : pick(8)) : (size_t)data;
    fill(&dice, bytes, size);
    set.start[set.frames++] = set.n;
    set.n += make_segment(message + set.n, m, bytes, size);
    set.total += size;
}

/* A set of N segments, each with that many bytes of data, in order or shuffled. */
static void make_set(uint32_t segments, int data, int shuffled)
{
    struct make_segment m = any_segment();
    uint32_t order[128];
    m.type = segments > 1 && m.type == 31 ? 2 : m.type;
    m.segments = segments;
    for (uint32_t i = 0; i < segments; i++)
        order[i] = i + 1;
    if (shuffled)
        shuffle(&dice, order, segments);
    set.n = set.total = set.frames = 0;
    for (uint32_t i = 0; i < segments; i++) {
        m.sequence = (uint32_t)pick(65536);
        m.number = segments == 1 ? any_number() : order[i];
        add_segment(&m, data);
    }
    message_size = set.n;
}

static void patches_of_set(size_t most_frames)
{
    patch_count = 0;
    for (size_t i = 0; i < set.frames && i < most_frames; i++) {
        size_t at = set.start[i], bytes = get(message + at + 8, 4);
        patches_of_frame(at, bytes);
        patches_of_header(at + 12, bytes);
        for (unsigned k = 2; k <= 14; k++)
            patch(at + 12 + k, 1, message[at + 12 + k] ^ 1);
        cut(at);
        cut(at + 11);
        cut(at + 12);
        cut(at + 27);
    }
    cut(set.n + 1);
    cut(set.n + 12);
    cut(set.n - 1);
}

/* Any room, most often one near what the joined data needs. */
static size_t room_near(size_t needed)
{
    switch (pick(6)) {
    case 0: return needed == 0 ? 0 : needed - 1;
    case 1: return needed + pick(100);
    case 2: return pick(needed + 1);
    case 3: return one_in(4) ? 0 : needed;
    default: return needed;
    }
}

static void set_edges(void)
{
    static uint8_t bytes[MOST_BYTES];
    for (size_t room = 0; room <= 2; room++)
        compare_set(NULL, 0, room);
    for (uint32_t segments = 1; segments <= 3; segments++) {
        make_set(segments, 2 * (int)segments, 0);
        memcpy(bytes, message, set.n);
        patches_of_set(3);
        for (set_room = set.total - 1; set_room <= set.total + 1; set_room++)
            each_patch(bytes, set.n, 4000, ask_set);
    }
}

/* 128 segments, the last one absent, and one patch among them at a time. */
static void long_set_edges_at(int data, int shuffled)
{
    make_set(128, data, shuffled);
    for (size_t room = set.total == 0 ? 0 : set.total - 1; room <= set.total + 1; room++)
        compare_set(message, message_size, room);
    compare_set(message, set.start[127], set.total);
    patches_of_set(128);
    for (unsigned left = 40; left > 0; left--) {
        make_set(128, data, shuffled);
        apply(&patches[pick(patch_count)]);
        compare_set(message, message_size, set.total);
    }
}

/* The longest sets: 128 segments, empty to full; one of the longest radial. */
static void long_set_edges(void)
{
    for (int shuffled = 0; shuffled <= 1; shuffled++) {
        long_set_edges_at(0, shuffled);
        long_set_edges_at(2, shuffled);
        long_set_edges_at(2400, shuffled);
    }
    struct make_segment s = { 1, 31, 2, 3, 4, 1, 1 };
    message_size = make_segment(message, &s, message + 28, 131052);
    for (size_t room = 131050; room <= 131054; room++)
        compare_set(message, message_size, room);
}

/* A frame beside one in the long form, in a set: the same again, and others that do and don't agree with it. */
static size_t make_beside(uint8_t *out, const struct make_segment *m, unsigned way, const uint8_t *first, size_t size)
{
    struct make_segment s = *m;
    switch (way) {
    case 0: memcpy(out, first, size); return size;
    case 1: return make_segment(out, &s, NULL, 0);
    case 2: s.date++; return make_segment(out, &s, NULL, 0);
    case 3: s.channel++; return make_long(out, &s, first + 28, LEAST_LONG - 16);
    case 4: s.type = 2; return make_segment(out, &s, NULL, 0);
    case 5: return make_frame(out, 4, 0, NULL, 0);
    case 6: return make_long(out, &s, first + 28, 2);
    default: memset(out, 0, 11); return 11;
    }
}

/* A radial in the long form with another frame after it and before it. */
static void long_pair_edges(size_t data)
{
    static uint8_t first[28 + MOST_LONG], second[28 + MOST_LONG];
    struct make_segment m = { 1, 31, 2, 3, 4, 1, 1 };
    size_t size = make_long(first, &m, any_body(data), data);
    for (unsigned way = 0; way < 8; way++) {
        size_t n = make_beside(second, &m, way, first, size);
        start_from(first, size);
        memcpy(message + size, second, n);
        compare_set(message, size + n, data);
        start_from(second, n);
        memcpy(message + n, first, size);
        compare_set(message, n + size, data);
    }
}

/* One radial by each limit of both forms, in either form, with room for it and with a byte less. */
static void long_radial_edges_at(size_t data)
{
    struct make_segment s = { 1, 31, 2, 3, 4, 1, 1 };
    for (unsigned form = 0; form <= 1; form++) {
        message_size = (form == 0 ? make_segment : make_long)(message, &s, any_body(data), data);
        compare_set(message, message_size, 0);
        for (size_t room = data - 1; room <= data + 1; room++)
            compare_set(message, message_size, room);
    }
}

static void long_radial_set_edges(void)
{
    static uint8_t bytes[MOST_BYTES];
    struct make_segment s = { 1, 31, 2, 3, 4, 1, 1 };
    for (size_t data = 131048; data <= 131058; data++)
        long_radial_edges_at(data);
    for (size_t data = 1048556; data <= 1048564; data++)
        long_radial_edges_at(data);
    for (unsigned left = 10; left > 0; left--)
        long_radial_edges_at(any_long() - 16);
    long_pair_edges(LEAST_LONG - 16);
    long_pair_edges(MOST_LONG - 16);
    size_t n = make_long(bytes, &s, any_body(MOST_LONG), LEAST_LONG - 16);
    start_from(bytes, n);
    set.n = n;
    set.frames = 1;
    set.start[0] = 0;
    patches_of_set(1);
    set_room = LEAST_LONG - 16;
    each_patch(bytes, n, 400, ask_set);
}

/* A radial in the long form, now and then with a short one beside it, or damaged. */
static void long_set_by_chance(void)
{
    struct make_segment s = any_segment();
    size_t data = any_long() - 16;
    s.type = 31;
    message_size = make_long(message, &s, any_body(data), data);
    patch_count = 0;
    patches_of_frame(0, data + 16);
    patches_of_header(12, data + 16);
    s.segments = 1;
    if (one_in(4))
        message_size += make_segment(message + message_size, &s, any_body(16), 2 * pick(8));
    else
        damage();
    compare_set(message, message_size, room_near(data));
}

/* Repeats, leaves out, swaps or mixes in a whole frame. */
static void disorder(void)
{
    size_t i = pick(set.frames), k = pick(set.frames), at = set.start[i];
    size_t size = 12 + get(message + at + 8, 4), other = 12 + get(message + set.start[k] + 8, 4);
    switch (pick(4)) {
    case 0:
        memmove(message + message_size, message + set.start[k], other);
        message_size += other;
        break;
    case 1:
        memmove(message + at, message + at + size, message_size - at - size);
        message_size -= size;
        break;
    case 2:
        message_size += make_frame(message + message_size, (uint32_t)pick(5), 0, message + at, pick(30));
        break;
    default:
        put(message + at + 26, 2, 1 + pick(set.frames + 1));
        break;
    }
}

static void set_by_chance(void)
{
    if (one_in(300)) {
        long_set_by_chance();
        return;
    }
    uint32_t segments = 1 + (uint32_t)(one_in(40) ? pick(128) : pick(5));
    make_set(segments, BY_CHANCE, 1);
    patches_of_set(6);
    size_t room = room_near(set.total);
    if (one_in(3))
        disorder();
    else
        damage();
    compare_set(message, message_size, room);
}

/* ---- Damaged recordings ---- */

/* Puts some bytes, which don't lie in the message, in place of others at a place of it, if there is room. */
static void replace(size_t at, size_t less, const uint8_t *bytes, size_t more)
{
    if (message_size - less + more > MOST_BYTES)
        return;
    memmove(message + at + more, message + at + less, message_size - at - less);
    if (more != 0)
        memcpy(message + at, bytes, more);
    message_size += more - less;
}

static void add(const uint8_t *bytes, size_t n)
{
    replace(message_size, 0, bytes, n);
}

/* Bytes by chance, half of the time only small ones, as in a frame's kind. */
static void fill_any(uint8_t *p, size_t n)
{
    unsigned codes = one_in(2) ? 256 : 1 + (unsigned)pick(3);
    fill(&dice, p, n);
    for (size_t i = 0; i < n; i++)
        p[i] = (uint8_t)(p[i] % codes);
}

/* A data frame that passes, with any second number and that much data. */
static size_t any_kept(uint8_t *out, size_t data)
{
    struct make_segment s = any_segment();
    if (data > 2400) {
        s.type = 31;
        s.segments = 1;
    }
    fill_any(out + 28, data);
    size_t n = (data + 16 < LEAST_LONG ? make_segment : make_long)(out, &s, out + 28, data);
    put(out + 4, 4, one_in(2) ? 0 : chance(&dice));
    return n;
}

static void add_kept(size_t data)
{
    static uint8_t bytes[12 + MOST_LONG];
    add(bytes, any_kept(bytes, data));
}

/* The message salvaged by bytewise.c: how much of both outputs it needs, and what it writes to the first one. */
static uint8_t salvaged[MOST_BYTES];

static struct bytewise taken(void)
{
    static uint64_t list[2 * (MOST_BYTES / 29 + 1)];
    return salvage_bytewise(message, message_size, salvaged, list);
}

/* The numbers that always suffice for a list of runs. */
static size_t most_numbers(void)
{
    return 2 * ((message_size + 28) / 29);
}

/* Asks with room that always suffices, with room that just suffices, and with rooms near that. */
static void ask_salvage(void)
{
    struct bytewise r = taken();
    compare_salvage(message, message_size, message_size, most_numbers());
    compare_salvage(message, message_size, r.length, 2 * r.runs);
    compare_salvage(message, message_size, room_near(r.length), room_near(2 * r.runs));
}

/* Asks with rooms around none, one run, what just suffices and what always suffices, for both outputs. */
static void ask_salvage_rooms(void)
{
    struct bytewise r = taken();
    size_t n = message_size, length = r.length, numbers = 2 * r.runs, most = most_numbers();
    size_t rooms[] = { 0, 1, length - 1, length, length + 1, n - 1, n, n + 1 };
    size_t lists[] = { 0, 1, 2, 3, numbers - 2, numbers - 1, numbers, numbers + 1, most - 2, most - 1, most, most + 1 };
    for (size_t i = 0; i < COUNT(rooms); i++)
        for (size_t k = 0; k < COUNT(lists); k++)
            if (rooms[i] <= n + 1 && lists[k] <= most + 1) /* a larger one has wrapped below 0 */
                compare_salvage(message, message_size, rooms[i], lists[k]);
}

/* Salvages again what was kept of the message: all of it must be kept. */
static void salvage_again(void)
{
    size_t n = taken().length;
    start_from(salvaged, n);
    if (taken().length != n) {
        fprintf(stderr, "what was kept is not kept again\n");
        exit(2);
    }
    ask_salvage();
}

/* Four short frames: each stretch of them cut out, doubled, or lost to zeros. */
static void stretch_edges(void)
{
    static const uint8_t zeros[256];
    uint8_t bytes[256];
    message_size = 0;
    for (size_t data = 0; data <= 6; data += 2)
        add_kept(data);
    ask_salvage_rooms();
    size_t n = message_size;
    memcpy(bytes, message, n);
    for (size_t at = 0; at <= n; at++)
        for (size_t end = at; end <= n; end++) {
            start_from(bytes, n);
            replace(at, end - at, NULL, 0);
            ask_salvage();
            start_from(bytes, n);
            replace(at, 0, bytes + at, end - at);
            ask_salvage();
            start_from(bytes, n);
            replace(at, end - at, zeros, end - at);
            ask_salvage();
        }
}

enum { INSERTED = 28 + 8 + 12 };

/* What is inserted: the first 0 to 27 bytes of a frame; a single byte; a frame of each kind and of an unknown one,
 * empty or with the body of a message. */
static size_t make_inserted(size_t i, uint8_t *out)
{
    static const uint8_t single[] = { 0, 1, 2, 3, 4, 7, 254, 255 };
    size_t n = any_kept(out, 2);
    if (i < 28)
        return i;
    if (i < 28 + COUNT(single)) {
        out[0] = single[i - 28];
        return 1;
    }
    i -= 28 + COUNT(single);
    put(out, 4, i / 2);
    return i % 2 == 0 ? n : make_frame(out, (uint32_t)i / 2, (uint32_t)chance(&dice), NULL, 0);
}

/* Three frames: bytes inserted at every place, and every byte altered. */
static void place_edges(void)
{
    uint8_t bytes[256], inserted[64];
    message_size = 0;
    for (size_t data = 0; data <= 4; data += 2)
        add_kept(data);
    size_t n = message_size;
    memcpy(bytes, message, n);
    for (size_t at = 0; at <= n; at++)
        for (size_t i = 0; i < INSERTED; i++) {
            start_from(bytes, n);
            replace(at, 0, inserted, make_inserted(i, inserted));
            ask_salvage();
            salvage_again();
        }
    for (size_t at = 0; at < n; at++)
        for (unsigned value = 0; value < 16; value++) {
            start_from(bytes, n);
            message[at] = value < 8 ? (uint8_t)(bytes[at] ^ 1u << value) : (uint8_t)(value - 8);
            ask_salvage();
        }
}

/* A frame inside another, or partly so, at every place: passed over where the outer one is kept, and found where that
 * is of another kind or its header is refused. */
static void nested_edges(void)
{
    uint8_t bytes[256], inner[64];
    for (size_t at = 1; at <= 28 + 60; at++) {
        struct make_segment s = { 1, 31, 2, 3, 4, 1, 1 };
        message_size = 0;
        memset(bytes, (int)pick(3), sizeof bytes);
        add(bytes, make_segment(bytes, &s, bytes + 28, 60));
        size_t outer = message_size, n = any_kept(inner, 2), covered = outer - at < n ? outer - at : n;
        replace(at, covered, inner, n);
        n = message_size;
        memcpy(bytes, message, n);
        patch_count = 0;
        patches_of_frame(0, outer - 12);
        patches_of_header(12, outer - 12);
        each_patch(bytes, n, 0, ask_salvage);
    }
}

/* The same run before, between and after two frames. */
static void ask_with_run(const uint8_t *run, size_t n)
{
    message_size = 0;
    add(run, n);
    add_kept(0);
    add(run, n);
    add_kept(2);
    add(run, n);
    ask_salvage();
}

/* Every short run of the bytes that a kind has. */
static void kind_edges(void)
{
    uint8_t run[6];
    for (size_t n = 0, runs = 1; n <= sizeof run; n++, runs *= 3)
        for (size_t i = 0; i < runs; i++) {
            for (size_t k = 0, digits = i; k < n; k++, digits /= 3)
                run[k] = (uint8_t)(digits % 3);
            ask_with_run(run, n);
        }
}

/* Longer ones: of zeros, of twos, and of both in turn. */
static void long_run_edges(void)
{
    static const char *const turns[] = { "0", "2", "02", "002", "0002", "00002", "022" };
    static const size_t long_ones[] = { 255, 256, 257, 4095, 4096, 4097, 65535, 65536, 65537 };
    static uint8_t run[65537];
    for (size_t i = 0; i < COUNT(turns); i++) {
        for (size_t k = 0; k < sizeof run; k++)
            run[k] = (uint8_t)(turns[i][k % strlen(turns[i])] - '0');
        for (size_t n = 7; n < 80; n++)
            ask_with_run(run, n);
        for (size_t k = 0; k < COUNT(long_ones); k++)
            ask_with_run(run, long_ones[k]);
    }
}

/* A byte before each of the shortest frames: as many runs as there can be. */
static void most_runs_edges(void)
{
    static const size_t frames[] = { 0, 1, 2, 31, 300, 36000 };
    for (size_t i = 0; i < COUNT(frames); i++) {
        message_size = 0;
        for (size_t left = frames[i]; left > 0; left--) {
            add((const uint8_t *)"\7", 1);
            add_kept(0);
        }
        for (size_t last = 0; last <= 1; last++) {
            if (taken().runs != (message_size + 28) / 29) {
                fprintf(stderr, "not as many runs as there can be\n");
                exit(2);
            }
            frames[i] <= 300 ? ask_salvage_rooms() : ask_salvage();
            add((const uint8_t *)"\7", 1);
        }
    }
}

/* Bodies of every size that any type can have; the longest ones, and one halfword more and less, by both limits. */
static void size_edges(void)
{
    static const size_t sizes[] = { 1207, 1208, 1209, 65533, 65534, 65535 };
    static uint8_t bytes[12 + 2 * 65535];
    for (size_t data = 0; data <= 2400; data += 2) {
        message_size = 0;
        add_kept(data);
        add_kept(0);
        ask_salvage();
    }
    for (size_t i = 0; i < COUNT(sizes); i++)
        for (uint32_t type = 30; type <= 31; type++) {
            struct make_segment s = { 1, type == 30 ? 2 : type, 2, 3, 4, 1, 1 };
            message_size = 0;
            add((const uint8_t *)"\0\0\0", 3);
            add(bytes, make_segment(bytes, &s, bytes + 28, 2 * sizes[i] - 16));
            size_t n = message_size;
            ask_salvage();
            message_size--;
            ask_salvage();
            message_size = n;
            add_kept(0);
            ask_salvage();
        }
}

/* What is broken in a radial in the long form: nothing; its length, by a few bytes or changed about; the frame's size;
 * type, date and time; the size that says which form it is; the segment fields of a short one; the kind. */
static const struct patch long_breaks[] = { { 4, 4, 7 },           { 24, 4, 2 },       { 24, 4, 131068 },
                                            { 24, 4, 131071 },     { 24, 4, 131072 },  { 24, 4, 1048576 },
                                            { 24, 4, 0xFFFE0001 }, { 8, 4, 131068 },   { 8, 4, 131069 },
                                            { 8, 4, 131072 },      { 8, 4, 1048574 },  { 8, 4, 1048577 },
                                            { 15, 1, 2 },          { 15, 1, 14 },      { 18, 2, 0 },
                                            { 20, 4, 86400000 },   { 12, 2, 65534 },   { 24, 4, 65537 },
                                            { 3, 1, 4 } };

/* A radial in the long form after a few bytes and a short frame, and before these; with frames in its body, which are
 * found where it isn't kept itself. */
static void make_long_recording(size_t data, const struct patch *broken)
{
    static uint8_t bytes[28 + MOST_LONG];
    struct make_segment s = { 1, 31, 2, 3, 4, 1, 1 };
    memset(bytes, (int)pick(3), sizeof bytes);
    make_long(bytes, &s, bytes + 28, data);
    any_kept(bytes + 28 + pick(60), 2);
    any_kept(bytes + 28 + data / 2, 4);
    any_kept(bytes + 28 + data - 30, 2);
    put(bytes + broken->at, broken->wide, broken->value);
    message_size = 0;
    add((const uint8_t *)"\0\0\0", pick(4));
    add_kept(0);
    add(bytes, 28 + data);
    add((const uint8_t *)"\2\0\0", pick(4));
    add_kept(2);
}

/* Asks with room that just suffices, and with a little less of one. */
static void ask_long_salvage(void)
{
    struct bytewise r = taken();
    compare_salvage(message, message_size, r.length, 2 * r.runs);
    if (r.runs == 0 || one_in(2))
        compare_salvage(message, message_size, r.length - 1, 2 * r.runs);
    else
        compare_salvage(message, message_size, r.length, 2 * r.runs - 1);
}

static void long_salvage_edges(void)
{
    static const size_t cuts[] = { 1, 2, 58, 59, 60, 61, 62, 1000, 65536 };
    for (size_t i = 0; i < COUNT(long_breaks); i++) {
        make_long_recording(LEAST_LONG - 16, &long_breaks[i]);
        ask_salvage();
        make_long_recording((i % 2 == 0 ? MOST_LONG : any_long()) - 16, &long_breaks[i]);
        ask_long_salvage();
    }
    for (size_t i = 0; i < COUNT(cuts); i++) {
        make_long_recording((i % 3 == 0 ? MOST_LONG : LEAST_LONG) - 16, &long_breaks[0]);
        message_size -= cuts[i];
        ask_long_salvage();
    }
    for (size_t data = MOST_LONG - 18; data <= MOST_LONG - 14; data++) {
        make_long_recording(data, &long_breaks[0]);
        ask_long_salvage();
    }
    message_size = 0;
    add_kept(MOST_LONG - 16);
    add_kept(MOST_LONG - 16);
    compare_salvage(message, message_size, message_size, 0);
    compare_salvage(message, message_size, message_size - 1, 0);
}

static void salvage_edges(void)
{
    static uint8_t bytes[MOST_BYTES];
    for (size_t room = 0; room <= 1; room++)
        for (size_t numbers = 0; numbers <= 2; numbers++)
            compare_salvage(NULL, 0, room, numbers);
    stretch_edges();
    place_edges();
    nested_edges();
    kind_edges();
    long_run_edges();
    most_runs_edges();
    size_edges();
    long_salvage_edges();
    for (uint32_t segments = 1; segments <= 3; segments++) {
        make_set(segments, 2 * (int)segments, 0);
        memcpy(bytes, message, set.n);
        patches_of_set(3);
        each_patch(bytes, set.n, 2000, ask_salvage);
    }
}

/* A frame of any kind with any body, a frame in it now and then. */
static void add_other(void)
{
    uint8_t bytes[160], body[128];
    size_t n = pick(sizeof body);
    fill(&dice, body, n);
    if (one_in(3))
        n = any_kept(body, 2 * pick(20));
    add(bytes, make_frame(bytes, (uint32_t)pick(6), (uint32_t)chance(&dice), body, n));
}

/* Bytes by chance, or a part of the message. */
static size_t any_stretch(uint8_t *out, size_t most)
{
    size_t n = pick(most + 1), at = pick(message_size + 1);
    fill_any(out, n);
    if (one_in(3)) {
        n = n < message_size - at ? n : message_size - at;
        memcpy(out, message + at, n);
    }
    return n;
}

/* Cuts out, inserts or puts in place of others a few bytes, or many. */
static void damage_recording(void)
{
    uint8_t bytes[4096];
    size_t at = pick(message_size + 1), less = pick(one_in(3) ? sizeof bytes : 8);
    size_t more = any_stretch(bytes, one_in(3) ? sizeof bytes : 8);
    less = less < message_size - at ? less : message_size - at;
    switch (pick(4)) {
    case 0: replace(at, less, NULL, 0); break;
    case 1: replace(at, 0, bytes, more); break;
    case 2: replace(at, less, bytes, less < more ? less : more); break;
    default: replace(at, less, bytes, more); break;
    }
}

static void salvage_by_chance(void)
{
    message_size = 0;
    for (uint64_t left = pick(8); left > 0; left--) {
        add_kept(one_in(2000)  ? any_long() - 16
                 : one_in(200) ? 2 * pick(65527)
                 : one_in(8)   ? 2 * pick(1201)
                               : 2 * pick(20));
        if (one_in(4))
            add_other();
    }
    for (uint64_t left = pick(5); left > 0; left--)
        damage_recording();
    ask_salvage();
    if (one_in(4))
        salvage_again();
}

/* ---- Writing ---- */

static size_t written(uint32_t type, size_t n)
{
    return n + 28 * (n == 0 || type == 31 ? 1 : (n + 2399) / 2400);
}

static void write_to_rooms(uint32_t type, uint32_t date, uint32_t ms, size_t n)
{
    size_t needed = written(type, n);
    size_t rooms[] = { 0, 27, 28, needed - 1, needed, needed + 1, needed + 64 };
    for (size_t i = 0; i < COUNT(rooms); i++)
        compare_write((uint8_t)pick(256), (uint8_t)type, (uint16_t)pick(65536), (uint16_t)date, ms, any_body(n), n,
                      rooms[i]);
}

/* Writes a message, then reads its first header, joins it and salvages it. The body comes back. */
static void write_and_read(uint32_t type, size_t n)
{
    const uint8_t *body = any_body(n);
    size_t length = written(type, n);
    if (compare_write(3, (uint8_t)type, (uint16_t)pick(65536), 16000, 1000, body, n, length) != length) {
        fprintf(stderr, "%zu bytes of type %u are not written\n", n, (unsigned)type);
        exit(2);
    }
    start_from(compared_output(), length);
    compare_header(message + 12, get(message + 8, 4));
    compare_salvage(message, message_size, length, 0);
    compare_set(message, message_size, n - 1);
    compare_set(message, message_size, n);
    if (memcmp(compared_output(), body, n) != 0) {
        fprintf(stderr, "%zu bytes of type %u are not read back\n", n, (unsigned)type);
        exit(2);
    }
}

/* A radial's body by the limits of both forms, and any other's by its own. */
static void long_write_edges(void)
{
    for (size_t n = 131048; n <= 131060; n++)
        write_to_rooms(31, 7, 9, n);
    for (size_t n = 1048554; n <= 1048566; n++)
        write_to_rooms(31, 7, 9, n);
    for (size_t n = 307196; n <= 307204; n++)
        for (uint32_t type = 31; type <= 33; type++)
            write_to_rooms(type == 33 ? 18 : type, 7, 9, n);
    for (size_t n = 131048; n <= 131060; n += 2)
        write_and_read(31, n);
    for (size_t n = 1048554; n <= 1048560; n += 2)
        write_and_read(31, n);
    for (unsigned left = 10; left > 0; left--)
        write_and_read(31, any_long() - 16);
    write_and_read(18, 307200);
}

static void write_edges(void)
{
    static const uint32_t dates[] = { 0, 1, 65535 }, times[] = { 0, 86399999, 86400000, UINT32_MAX };
    static const size_t lengths[] = { 0, 1, 2, 3, 2398, 2399, 2400, 2401, 2402, 4800, 4802 };
    static const size_t long_ones[] = { 131050, 131051, 131052, 131053, 131054, 304798, 304800, 304802, 307198, 307199,
                                        307200, 307201, 307202, 400000, 400001 };
    for (size_t t = 0; t < COUNT(types); t++)
        for (size_t d = 0; d < COUNT(dates); d++)
            for (size_t m = 0; m < COUNT(times); m++)
                write_to_rooms(types[t], dates[d], times[m], lengths[(t + d + m) % COUNT(lengths)]);
    for (uint32_t type = 0; type <= 255; type++)
        compare_write(1, (uint8_t)type, 65535, 1, 0, NULL, 0, 28);
    for (size_t i = 0; i < COUNT(lengths); i++)
        for (uint32_t type = 30; type <= 32; type++)
            write_to_rooms(type == 30 ? 2 : type, 16000, 1000, lengths[i]);
    for (size_t i = 0; i < COUNT(long_ones); i++)
        for (uint32_t type = 31; type <= 33; type++)
            write_to_rooms(type == 33 ? 2 : type, one_in(8) ? 0 : 7, 9, long_ones[i]);
}

static void write_by_chance(void)
{
    uint32_t type = one_in(8) ? (uint32_t)pick(256) : ONE_OF(permitted);
    uint32_t date = one_in(12) ? 0 : (uint32_t)pick(65536);
    uint32_t ms = (uint32_t)(one_in(12) ? 86399990 + pick(20) : one_in(12) ? chance(&dice) : pick(86400000));
    size_t n = one_in(60) ? pick(320000) : one_in(6) ? pick(6000) : pick(60);
    if (one_in(500)) {
        type = 31;
        n = any_long() - 16 + pick(3);
    }
    if (!one_in(12))
        n &= ~(size_t)1;
    compare_write((uint8_t)pick(256), (uint8_t)type, (uint16_t)pick(65536), (uint16_t)date, ms, any_body(n), n,
                  room_near(written(type, n)));
}

/* ---- Radials ---- */

static const uint32_t odd_names[] = { 0, UINT32_MAX, 0x52564F4C, 0x52454C56, 0x52524144, 0x44535700, 0x44434650,
                                      0x64726566, 0x46455244, 0x00524546, 0x44524500, 0x52454620 };
static const uint32_t float_bits[] = { 0,          1,          0x007FFFFF, 0x00800000, 0x3F800000, 0x40000000,
                                       0x42840000, 0x7F7FFFFF, 0x7F800000, 0x7F800001, 0x7FC00000, 0x7FFFFFFF,
                                       0x80000000, 0x80000001, 0xBF800000, 0xC2720000, 0xFF7FFFFF, 0xFF800000,
                                       0xFF800001, 0xFFFFFFFF, 0x43960000, 0x40358106, 0x47800000, 0x00000002 };
static const uint64_t far_gates[] = { UINT64_MAX, UINT64_MAX / 2, UINT64_MAX / 2 + 1, UINT32_MAX, UINT64_C(1) << 32,
                                      65535, 65536, 1840, 1841 };

/* A finite scale above 0 and a finite offset, as they are met. */
static uint32_t usual_float(void)
{
    static const uint32_t usual[] = { 0x40000000, 0x42840000, 0x3F800000, 0x43010000, 0x41800000, 0x43000000,
                                      0x40358106, 0x43960000 };
    return ONE_OF(usual);
}

static struct make_moment any_moment(uint32_t name)
{
    struct make_moment m = { name, (uint32_t)pick(12), one_in(3) ? 16 : 8, usual_float(), usual_float() };
    if (one_in(24))
        m.gates = (uint32_t)pick(1841);
    if (one_in(6))
        m.scale = one_in(2) ? ONE_OF(float_bits) : (uint32_t)chance(&dice);
    if (one_in(6))
        m.offset = one_in(2) ? ONE_OF(float_bits) : (uint32_t)chance(&dice);
    return m;
}

static struct make_radial any_radial(void)
{
    struct make_radial r = { .constant = { 44, 12, 20 }, .moments = 1 + (uint32_t)pick(6) };
    uint32_t order[6];
    memcpy(order, make_names, sizeof order);
    shuffle(&dice, order, 6);
    for (unsigned k = 0; k < r.moments; k++)
        r.moment[k] = any_moment(order[k]);
    for (unsigned k = 0; k < 3; k++)
        if (one_in(4))
            r.constant[k] += (uint32_t)pick(12);
    for (unsigned k = 0; k < 9; k++)
        if (one_in(6))
            r.gap[k] = (uint32_t)pick(6);
    r.tail = one_in(4) ? (uint32_t)pick(40) : 0;
    return r;
}

static void patches_of_constant(unsigned k, size_t at, size_t end)
{
    static const uint32_t least[] = { 44, 12, 20 };
    patch(at, 4, make_names[k]);
    patch(at, 4, 0x52564F4C);
    patch(at, 4, 0x52454C56);
    patch(at, 4, 0x52524144);
    patch(at + 3, 1, 0);
    limit(at + 4, 2, least[k]);
    limit(at + 4, 2, get(message + at + 4, 2));
    limit(at + 4, 2, end - at);
    patch(at + 4, 2, 0);
    all_ones(at + 4, 2);
}

static void patches_of_moment(size_t at, size_t end)
{
    for (size_t i = 0; i < COUNT(make_names); i++)
        patch(at, 4, make_names[i]);
    patch(at, 4, ONE_OF(odd_names));
    limit(at + 8, 2, get(message + at + 8, 2));
    limit(at + 8, 2, 1840);
    limit(at + 8, 2, end - at - 28);
    limit(at + 8, 2, (end - at - 28) / 2);
    patch(at + 8, 2, 0);
    all_ones(at + 8, 2);
    limit(at + 19, 1, 8);
    limit(at + 19, 1, 16);
    patch(at + 19, 1, 0);
    patch(at + 19, 1, 24);
    patch(at + 19, 1, 32);
    patch(at + 20, 4, ONE_OF(float_bits));
    patch(at + 24, 4, ONE_OF(float_bits));
}

/* A pointer at both sides of the earliest place and of the last one that leaves enough. */
static void patches_of_pointer(unsigned k, size_t end_before, size_t length)
{
    limit(32 + 4 * k, 4, end_before);
    limit(32 + 4 * k, 4, length - 6);
    limit(32 + 4 * k, 4, length - 28);
    limit(32 + 4 * k, 4, length);
    limit(32 + 4 * k, 4, 68);
    patch(32 + 4 * k, 4, 0);
    patch(32 + 4 * k, 4, get(message + 32, 4));
    patch(32 + 4 * k, 4, get(message + 32 + 4 * k, 4) + 16);
    patch(32 + 4 * k, 4, UINT64_C(1) << 31);
    for (uint64_t back = 1; back <= 28; back += 9)
        patch(32 + 4 * k, 4, UINT32_MAX - back);
    all_ones(32 + 4 * k, 4);
}

/* Patches of the radial that is the message now. */
static void patches_of_radial(void)
{
    size_t length = get(message + 18, 2), count = get(message + 30, 2), end = 68;
    patch_count = 0;
    for (unsigned k = 0; k < count; k++) {
        size_t at = get(message + 32 + 4 * k, 4);
        patches_of_pointer(k, end, length);
        if (k < 3)
            patches_of_constant(k, at, length);
        else
            patches_of_moment(at, length);
        end = at + (k < 3 ? get(message + at + 4, 2) : 28 + get(message + at + 8, 2) * message[at + 19] / 8);
    }
    patch(16, 1, 1);
    all_ones(16, 1);
    patch(17, 1, 255);
    limit(18, 2, length);
    limit(18, 2, 68);
    limit(18, 2, message_size);
    limit(18, 2, end);
    patch(18, 2, 0);
    all_ones(18, 2);
    limit(30, 2, 4);
    limit(30, 2, 9);
    limit(30, 2, count);
    patch(30, 2, 0);
    patch(30, 2, 256 + count);
    all_ones(30, 2);
    limit(0, 0, 68);
    limit(0, 0, length);
    cut(0);
    cut(15);
    cut(message_size + 3);
}

/* Every question about the radial. */
static void ask_of_radial(uint32_t block, uint32_t name, uint64_t gate)
{
    compare_radial(message, message_size);
    compare_block(message, message_size, block);
    compare_gates(message, message_size, name);
    compare_gate(message, message_size, name, gate);
}

static void ask_radial(void)
{
    uint32_t name = one_in(8) ? ONE_OF(odd_names) : ONE_OF(make_names);
    ask_of_radial(one_in(16) ? (uint32_t)chance(&dice) : (uint32_t)pick(11), name,
                  one_in(12) ? ONE_OF(far_gates) : pick(8));
}

/* Every block, name and gate of one radial. */
static void ask_all_of_radial(void)
{
    for (uint32_t block = 0; block <= 10; block++)
        compare_block(message, message_size, block);
    compare_block(message, message_size, UINT32_MAX);
    for (size_t i = 0; i < COUNT(make_names) + COUNT(odd_names); i++) {
        uint32_t name = i < COUNT(make_names) ? make_names[i] : odd_names[i - COUNT(make_names)];
        compare_gates(message, message_size, name);
        for (uint64_t gate = 0; gate < 20; gate++)
            compare_gate(message, message_size, name, gate);
        for (size_t k = 0; k < COUNT(far_gates); k++)
            compare_gate(message, message_size, name, far_gates[k]);
    }
}

/* Blocks that touch and blocks that overlap: no gaps, no gates; the fewest and the most blocks. */
static void radial_edges(void)
{
    static uint8_t bytes[MOST_BYTES];
    for (uint32_t moments = 1; moments <= 6; moments++) {
        struct make_radial r = { .constant = { 44, 12, 20 }, .moments = moments };
        for (unsigned k = 0; k < moments; k++)
            r.moment[k] = (struct make_moment){ make_names[k], 2 * k, k % 2 == 0 ? 8 : 16, 0x40000000, 0x42840000 };
        r.tail = moments % 2;
        size_t n = make_radial(bytes, &r, &dice);
        start_from(bytes, n);
        ask_all_of_radial();
        patches_of_radial();
        each_patch(bytes, n, moments == 1 || moments == 6 ? 8000 : 1000, ask_radial);
    }
    compare_radial(NULL, 0);
    compare_block(NULL, 0, 1);
    compare_gates(NULL, 0, make_names[0]);
    compare_gate(NULL, 0, make_names[0], 0);
}

/* Six moments of as many gates as there can be, and of one more or less. */
static void full_radial_edges(void)
{
    for (uint32_t gates = 1839; gates <= 1841; gates++)
        for (uint32_t word = 8; word <= 16; word += 8) {
            struct make_radial r = { .constant = { 44, 12, 28 }, .moments = 6, .tail = word };
            for (unsigned k = 0; k < 6; k++)
                r.moment[k] = (struct make_moment){ make_names[k], gates, word, 0x40000000, 0x42840000 };
            message_size = make_radial(message, &r, &dice);
            for (uint64_t gate = 1830; gate < 1850; gate++)
                ask_of_radial((uint32_t)gate % 10, make_names[gate % 6], gate);
        }
}

/* A constant block as long as it can be, and a radial length at its type's end. */
static void long_radial_edges(void)
{
    for (uint32_t longer = 0; longer <= 2; longer++) {
        struct make_radial r = { .constant = { 44, 12, 65535 - 68 - 44 - 12 - 28 - longer }, .moments = 1 };
        r.moment[0] = (struct make_moment){ make_names[0], longer, 8, 0x40000000, 0 };
        r.tail = 100000;
        message_size = make_radial(message, &r, &dice);
        for (uint32_t block = 1; block <= 4; block++)
            ask_of_radial(block, make_names[0], block);
    }
}

static void radial_by_chance(void)
{
    struct make_radial r = any_radial();
    message_size = make_radial(message, &r, &dice);
    patches_of_radial();
    damage();
    ask_radial();
}

/* ---- Gate values ---- */

static void value_edges(void)
{
    static const uint16_t codes[] = { 0, 1, 2, 3, 65, 66, 67, 255, 256, 257, 1023, 32767, 32768, 65534, 65535 };
    for (size_t c = 0; c < COUNT(codes); c++)
        for (size_t s = 0; s < COUNT(float_bits); s++)
            for (size_t o = 0; o < COUNT(float_bits); o++)
                compare_value(codes[c], float_bits[s], float_bits[o]);
    for (uint32_t code = 0; code <= 65535; code += code < 300 ? 1 : 37)
        compare_value((uint16_t)code, 0x40358106, 0xC2720000);
}

static void value_by_chance(void)
{
    uint32_t scale = one_in(4) ? ONE_OF(float_bits) : (uint32_t)chance(&dice);
    uint32_t offset = one_in(4) ? ONE_OF(float_bits) : (uint32_t)chance(&dice);
    compare_value((uint16_t)(one_in(8) ? pick(4) : pick(65536)), one_in(3) ? scale & 0x7FFFFFFF : scale, offset);
}

/* ---- Requests ---- */

static const uint16_t requests[] = { 129, 130, 132, 136, 144, 160 };

static void request_edges(void)
{
    static const uint16_t near[] = { 0, 1, 128, 129, 131, 160, 161, 192, 33024, 65535 };
    uint8_t bytes[8] = { 0 };
    compare_request(NULL, 0);
    compare_write_request(NULL, 0, 0);
    for (uint32_t code = 0; code <= 65535; code += code < 300 ? 1 : 251) {
        put(bytes, 2, code);
        compare_request(bytes, 2);
    }
    for (size_t i = 0; i < COUNT(requests); i++)
        for (size_t k = 0; k < COUNT(near); k++)
            for (size_t n = 0; n <= 4; n++) {
                uint16_t list[4] = { i % 2 == 0 ? requests[i] : near[k], near[k], requests[i], 0 };
                put(bytes, 2, list[0]);
                compare_request(bytes, n);
                for (size_t room = 0; room <= 3; room++)
                    compare_write_request(list, n, room);
            }
}

static void request_by_chance(void)
{
    uint16_t list[8] = { 0 };
    uint8_t bytes[16];
    size_t n = one_in(4) ? pick(8) : 1;
    for (size_t i = 0; i < 8; i++)
        list[i] = one_in(3) ? (uint16_t)chance(&dice) : (uint16_t)(ONE_OF(requests) + (one_in(6) ? pick(3) : 0));
    for (size_t i = 0; i < 8; i++)
        put(bytes + 2 * i, 2, list[i]);
    compare_request(bytes, one_in(4) ? pick(16) : 2);
    compare_write_request(list, n, pick(5));
}

/* ---- Censor zones ---- */

static size_t censor_room;

/* Asks of the message as a body, and, where its length is even, as a list. */
static void ask_censor(void)
{
    static uint16_t list[MOST_BYTES / 2];
    compare_censor(message, message_size);
    for (size_t i = 0; i < message_size / 2; i++)
        list[i] = (uint16_t)get(message + 2 * i, 2);
    compare_write_censor(list, message_size / 2, censor_room);
}

static size_t censor_body(uint32_t count)
{
    uint16_t list[1 + 6 * 32];
    size_t n = make_censor(list, count, &dice);
    for (size_t i = 0; i < n; i++)
        put(message + 2 * i, 2, list[i]);
    return message_size = 2 * n;
}

static void patches_of_censor(void)
{
    static const uint16_t limits[] = { 511, 511, 360, 360, 5, 2 };
    size_t n = message_size, count = get(message, 2);
    patch_count = 0;
    limit(0, 2, count);
    limit(0, 2, 25);
    patch(0, 2, 0);
    patch(0, 2, 256 + count);
    all_ones(0, 2);
    for (size_t i = 0; i < 6 * count; i += i < 6 || i >= 6 * count - 7 ? 1 : 7) {
        limit(2 + 2 * i, 2, limits[i % 6]);
        patch(2 + 2 * i, 2, 0);
        all_ones(2 + 2 * i, 2);
    }
    cut(0);
    limit(0, 0, 2);
    limit(0, 0, n);
    cut(n < 12 ? 0 : n - 12);
    cut(n + 2);
    cut(n + 12);
}

static void censor_edges(void)
{
    static const uint32_t counts[] = { 0, 1, 2, 24, 25, 26 };
    static uint8_t bytes[1024];
    compare_censor(NULL, 0);
    for (size_t room = 0; room <= 2; room++)
        compare_write_censor(NULL, 0, room);
    for (size_t i = 0; i < COUNT(counts); i++) {
        size_t n = censor_body(counts[i]);
        memcpy(bytes, message, n);
        patches_of_censor();
        for (censor_room = n - 1; censor_room <= n + 1; censor_room++)
            each_patch(bytes, n, 1000, ask_censor);
    }
}

static void censor_by_chance(void)
{
    size_t n = censor_body((uint32_t)pick(one_in(4) ? 27 : 5));
    censor_room = room_near(n);
    patches_of_censor();
    damage();
    ask_censor();
}

/* ---- Filter maps ---- */

enum { LONG_MAP = 6 + 1800 * 82 };

static const uint64_t far_numbers[] = { UINT64_MAX,           UINT64_MAX - 359,     UINT64_MAX / 360,
                                        UINT64_MAX / 360 + 2, UINT64_C(1) << 32,    (UINT64_C(1) << 32) + 1,
                                        UINT64_C(1) << 63,    65536,                UINT32_MAX };

static void ask_code(void)
{
    uint64_t elevation = one_in(20) ? ONE_OF(far_numbers) : pick(7);
    uint64_t azimuth = one_in(20) ? ONE_OF(far_numbers) : one_in(10) ? 355 + pick(10) : pick(360);
    uint64_t kilometre = one_in(20) ? ONE_OF(far_numbers) : one_in(4) ? 505 + pick(10) : pick(512);
    compare_map_code(message, message_size, elevation, azimuth, kilometre);
}

static void ask_map(void)
{
    compare_map(message, message_size);
    ask_code();
}

/* Patches of one azimuth, whose zone count stands at a place; the place of the next. */
static size_t patches_of_azimuth(size_t at)
{
    size_t zones = get(message + at, 2);
    limit(at, 2, zones);
    limit(at, 2, 1);
    limit(at, 2, 20);
    all_ones(at, 2);
    limit(0, 0, at);
    limit(0, 0, at + 2);
    for (size_t k = 0; k < zones; k++) {
        size_t zone = at + 2 + 4 * k;
        limit(zone, 2, 2);
        all_ones(zone, 2);
        limit(zone + 2, 2, get(message + zone + 2, 2));
        limit(zone + 2, 2, 511);
        patch(zone + 2, 2, 0);
        patch(zone + 2, 2, k == 0 ? 0 : get(message + zone - 2, 2));
        all_ones(zone + 2, 2);
        limit(0, 0, zone + 2);
        cut(zone + 4);
    }
    return at + 2 + 4 * zones;
}

/* Patches of the header, of some azimuths by chance, and of the end. */
static void patches_of_map(uint64_t one_azimuth_in)
{
    patch_count = 0;
    limit(0, 2, 1);
    all_ones(0, 2);
    limit(2, 2, 1440);
    all_ones(2, 2);
    limit(4, 2, get(message + 4, 2));
    limit(4, 2, 5);
    patch(4, 2, 0);
    all_ones(4, 2);
    for (size_t length = 0; length <= 8; length++)
        cut(length);
    size_t n = message_size, last = 0;
    for (size_t at = 6; at < n;) {
        last = at;
        at = one_in(one_azimuth_in) ? patches_of_azimuth(at) : at + 2 + 4 * get(message + at, 2);
    }
    patches_of_azimuth(last);
    limit(0, 0, n);
    cut(n + 2);
    cut(n + 6);
}

/* Every kilometre of some azimuths, and numbers at their types' ends. */
static void ask_all_codes(uint64_t elevations)
{
    for (uint64_t kilometre = 0; kilometre <= 513; kilometre++)
        compare_map_code(message, message_size, 1 + pick(elevations), pick(360), kilometre);
    for (uint64_t elevation = 0; elevation <= 7; elevation++)
        for (uint64_t azimuth = 357; azimuth <= 361; azimuth++)
            compare_map_code(message, message_size, elevation, azimuth % 361, 500 + 3 * elevation);
    for (size_t i = 0; i < COUNT(far_numbers); i++) {
        compare_map_code(message, message_size, far_numbers[i], 0, 0);
        compare_map_code(message, message_size, 1, far_numbers[i], 0);
        compare_map_code(message, message_size, 1, 0, far_numbers[i]);
        compare_map_code(message, message_size, far_numbers[i], far_numbers[i], far_numbers[i]);
    }
}

/* The header and one azimuth, cut off at every byte, with each field in range and out of it. */
static void short_map_edges(void)
{
    static const uint16_t dates[] = { 0, 1 }, minutes[] = { 0, 1440, 1441 }, elevations[] = { 0, 1, 5, 6 },
                          zones[] = { 0, 1, 2, 20, 21 }, codes[] = { 0, 2, 3 }, ends[] = { 0, 510, 511, 512 };
    size_t all = COUNT(dates) * COUNT(minutes) * COUNT(elevations) * COUNT(zones) * COUNT(codes) * COUNT(ends);
    for (size_t i = 0; i < all; i++) {
        size_t k = i;
        put(message, 2, dates[k % COUNT(dates)]), k /= COUNT(dates);
        put(message + 2, 2, minutes[k % COUNT(minutes)]), k /= COUNT(minutes);
        put(message + 4, 2, elevations[k % COUNT(elevations)]), k /= COUNT(elevations);
        put(message + 6, 2, zones[k % COUNT(zones)]), k /= COUNT(zones);
        put(message + 8, 2, codes[k % COUNT(codes)]), k /= COUNT(codes);
        put(message + 10, 2, ends[k]);
        put(message + 12, 2, pick(4));
        for (message_size = 0; message_size <= 14; message_size++)
            ask_map();
    }
}

static void map_edges(void)
{
    static uint8_t bytes[LONG_MAP];
    static const uint32_t zones[] = { 1, 3, 20 };
    compare_map(NULL, 0);
    compare_map_code(NULL, 0, 1, 0, 0);
    short_map_edges();
    for (size_t i = 0; i < COUNT(zones); i++) {
        size_t n = message_size = make_map(message, 1, zones[i], &dice);
        memcpy(bytes, message, n);
        ask_all_codes(1);
        patches_of_map(120);
        each_patch(bytes, n, 1500, ask_map);
    }
}

/* A map as long as can be, each azimuth the same: 20 zones of that many kilometres from the first end on, but for the
 * last one. Two such maps, one code and half a zone apart, differ in every kilometre. */
static size_t make_long_map(uint8_t *out, uint32_t first_end, uint32_t kilometres, uint32_t first_code)
{
    size_t n = make_map_header(out, 5, &dice);
    uint8_t *azimuth = out + n;
    put(azimuth, 2, 20);
    for (uint32_t k = 0; k < 20; k++) {
        put(azimuth + 2 + 4 * k, 2, (first_code + 2 * k) % 3);
        put(azimuth + 4 + 4 * k, 2, k == 19 ? 511 : first_end + kilometres * k);
    }
    for (size_t i = 0; i < 1800; i++, n += 82)
        memmove(out + n, azimuth, 82);
    return n;
}

/* Five elevations, and the longest map there is. */
static void long_map_edges(void)
{
    message_size = make_map(message, 5, 4, &dice);
    ask_all_codes(5);
    size_t n = make_long_map(message, 0, 5, 0);
    put(message, 2, 65535);
    put(message + 2, 2, 1440);
    for (message_size = n - 2; message_size <= n + 2; message_size++)
        ask_map();
}

static void map_by_chance(void)
{
    message_size = make_map(message, one_in(4) ? 1 + (uint32_t)pick(5) : 1, one_in(6) ? 20 : 1 + (uint32_t)pick(3), &dice);
    patches_of_map(60);
    damage();
    ask_map();
    ask_code();
}

/* ---- Two filter maps ---- */

/* The map that the message is compared with. */
static uint8_t other[MOST_BYTES];
static size_t other_size;

static void swap_maps(void)
{
    static uint8_t kept[MOST_BYTES];
    size_t n = message_size;
    memcpy(kept, message, n);
    start_from(other, other_size);
    memcpy(other, kept, n);
    other_size = n;
}

static size_t ask_comparison(size_t room)
{
    return compare_comparison(other, other_size, message, message_size, room);
}

enum { ELEVATION_HALFWORDS = 360 * AZIMUTH_HALFWORDS };

/* Asks with room enough, and with rooms around none, around one difference and around what is needed. */
static void ask_rooms(void)
{
    size_t needed = 6 * ask_comparison(MAP_HALFWORDS);
    size_t rooms[] = { 0, 1, 5, 6, 7, needed - 7, needed - 6, needed - 5, needed - 1, needed, needed + 1, needed + 7 };
    for (size_t i = 0; i < COUNT(rooms); i++)
        if (rooms[i] <= needed + 7) /* a larger one has wrapped below 0 */
            ask_comparison(rooms[i]);
}

/* The message and the other one, each as the old map. */
static void ask_both_ways(void)
{
    size_t room = one_in(4) ? pick(100) : ELEVATION_HALFWORDS;
    ask_comparison(room);
    compare_comparison(message, message_size, other, other_size, room);
}

/* Cuts the message, which is a map, to its first elevation segments. */
static void keep_elevations(uint32_t elevations)
{
    message_size = 6;
    for (uint32_t i = 0; i < 360 * elevations; i++)
        message_size += 2 + 4 * get(message + message_size, 2);
    put(message + 4, 2, elevations);
}

/* Every pair of elevation counts, of maps made apart and of maps that are nearly the same; and the same map twice. */
static void elevation_edges(void)
{
    static const uint32_t zones[] = { 1, 3, 20 };
    for (uint32_t i = 0; i < 50; i++) {
        other_size = make_map(other, 5, zones[i % 3], &dice);
        message_size = i < 25 ? make_map(message, 5, zones[i / 3 % 3], &dice)
                              : make_near_map(message, other, 1 + (uint32_t)pick(300), &dice);
        keep_elevations(1 + i % 5);
        swap_maps();
        keep_elevations(1 + i / 5 % 5);
        ask_rooms();
        start_from(other, other_size);
        ask_rooms();
    }
}

/* An azimuth with any of four ends beside 511: a bit of `ends` for each. */
static size_t make_ends(uint8_t *out, uint32_t ends, uint32_t codes)
{
    static const uint32_t places[] = { 0, 1, 255, 510, 511 };
    size_t zones = 0;
    for (size_t k = 0; k < COUNT(places); k++)
        if (((ends | 16) >> k & 1) != 0) {
            put(out + 2 + 4 * zones, 2, pick(codes));
            put(out + 4 + 4 * zones, 2, places[k]);
            zones++;
        }
    put(out, 2, zones);
    return 2 + 4 * zones;
}

static size_t make_ends_map(uint8_t *out, uint32_t divisor, uint32_t codes)
{
    size_t n = make_map_header(out, 1, &dice);
    for (uint32_t i = 0; i < 360; i++)
        n += make_ends(out + n, i / divisor % 16, codes);
    return n;
}

/* Every set of ends compared with every other: shared ends and others, with codes that change there or don't. */
static void shared_end_edges(void)
{
    for (uint32_t i = 0; i < 64; i++) {
        other_size = make_ends_map(other, 1, 2 + i % 2);
        message_size = make_ends_map(message, 16, 2 + i / 2 % 2);
        ask_both_ways();
    }
}

/* As many differences as there can be, 39 to each azimuth, of one kilometre or of more. */
static void most_differences_edges(void)
{
    for (uint32_t half = 1; half <= 13; half += 12) {
        other_size = make_long_map(other, half - 1, 2 * half, 0);
        message_size = make_long_map(message, 2 * half - 1, 2 * half, 1);
        if (6 * ask_comparison(MAP_HALFWORDS) != MAP_HALFWORDS) {
            fprintf(stderr, "not as many differences as there can be\n");
            exit(2);
        }
        ask_rooms();
        swap_maps();
        ask_rooms();
    }
}

/* Small maps that are nearly the same, one of them cut at each byte, and with each byte another. */
static void each_byte_edges(void)
{
    static uint8_t bytes[LONG_MAP];
    other_size = make_map(other, 1, 1, &dice);
    size_t n = make_near_map(bytes, other, 100, &dice);
    for (size_t i = 0; i < n; i++) {
        start_from(bytes, i);
        ask_both_ways();
        start_from(bytes, n);
        message[i] ^= (uint8_t)(1 + pick(255));
        ask_both_ways();
    }
}

/* Each of two maps whole, cut off, too long, or with a field out of range at its beginning or its end. */
static void refused_pairs(void)
{
    static uint8_t bytes[LONG_MAP];
    size_t n = make_map(bytes, 1, 1, &dice);
    patch_count = 0;
    limit(0, 0, n);
    cut(0);
    cut(5);
    limit(0, 2, 1);
    limit(4, 2, 5);
    limit(n - 2, 2, 511);
    for (size_t i = 0; i < patch_count * patch_count; i++) {
        start_from(bytes, n);
        apply(&patches[i / patch_count]);
        swap_maps();
        start_from(bytes, n);
        apply(&patches[i % patch_count]);
        ask_comparison(one_in(2) ? 0 : ELEVATION_HALFWORDS);
    }
}

static void comparison_edges(void)
{
    static uint8_t bytes[LONG_MAP];
    static const uint32_t zones[] = { 3, 20 };
    for (size_t room = 0; room <= 1; room++)
        compare_comparison(NULL, 0, NULL, 0, room);
    elevation_edges();
    shared_end_edges();
    most_differences_edges();
    each_byte_edges();
    refused_pairs();
    for (size_t i = 0; i < COUNT(zones); i++) {
        other_size = make_map(other, 1, zones[i], &dice);
        size_t n = message_size = make_near_map(message, other, 20, &dice);
        memcpy(bytes, message, n);
        patches_of_map(200);
        each_patch(bytes, n, 300, ask_both_ways);
    }
}

static void comparison_by_chance(void)
{
    uint32_t elevations = one_in(8) ? 1 + (uint32_t)pick(5) : 1, zones = one_in(6) ? 20 : 1 + (uint32_t)pick(3);
    other_size = make_map(other, elevations, zones, &dice);
    if (one_in(3))
        message_size = make_map(message, one_in(4) ? 1 + (uint32_t)pick(5) : elevations, 1 + (uint32_t)pick(20), &dice);
    else
        message_size = make_near_map(message, other, 1 + (uint32_t)pick(400), &dice);
    for (unsigned left = 2; left > 0; left--) {
        swap_maps();
        if (one_in(4)) {
            patches_of_map(60);
            damage();
        }
    }
    ask_comparison(room_near(6 * ask_comparison(elevations * ELEVATION_HALFWORDS)));
}

/* ---- The run ---- */

static void edges(void)
{
    frame_edges();
    long_frame_edges();
    header_edges();
    long_header_edges();
    lone_number_edges();
    set_edges();
    long_set_edges();
    long_radial_set_edges();
    salvage_edges();
    write_edges();
    long_write_edges();
    radial_edges();
    full_radial_edges();
    long_radial_edges();
    value_edges();
    request_edges();
    censor_edges();
    map_edges();
    long_map_edges();
    comparison_edges();
}

/* One of seventeen steps. A radial is asked four questions. Maps are long, so they are few, and pairs of maps fewer. */
static void step(void)
{
    switch (pick(17)) {
    case 0: case 1: frame_by_chance(); break;
    case 2: case 3: header_by_chance(); break;
    case 4: case 5: set_by_chance(); break;
    case 6: case 7: write_by_chance(); break;
    case 8: value_by_chance(); break;
    case 9: request_by_chance(); break;
    case 10: case 11: censor_by_chance(); break;
    case 12: one_in(4) ? comparison_by_chance() : map_by_chance(); break;
    case 13: salvage_by_chance(); break;
    default: radial_by_chance(); break;
    }
}

static double seconds_now(void)
{
    struct timespec t;
    timespec_get(&t, TIME_UTC);
    return (double)t.tv_sec + (double)t.tv_nsec / 1e9;
}

struct run {
    uint64_t inputs, seconds, seed;
    int heap, answers;
};

static uint64_t number_after(char **word)
{
    char *end = NULL;
    uint64_t n = word[1] == NULL ? 0 : strtoull(word[1], &end, 0);
    if (end == NULL || end == word[1] || *end != 0) {
        fprintf(stderr, "a number is missing after %s\n", word[0]);
        exit(2);
    }
    return n;
}

static struct run run_of(char **word)
{
    struct run r = { .inputs = 500000, .seed = 1 };
    for (; *word != NULL; word++) {
        if (strcmp(*word, "inputs") == 0)
            r.inputs = number_after(word++);
        else if (strcmp(*word, "seconds") == 0)
            r.seconds = number_after(word++);
        else if (strcmp(*word, "seed") == 0)
            r.seed = number_after(word++);
        else if (strcmp(*word, "heap") == 0)
            r.heap = 1;
        else if (strcmp(*word, "answers") == 0)
            r.answers = 1;
        else {
            fprintf(stderr, "usage: differential [inputs N | seconds S] [seed X] [heap] [answers]\n");
            exit(2);
        }
    }
    return r;
}

int main(int count, char **arguments)
{
    (void)count;
    struct run run = run_of(arguments + 1);
    double until = seconds_now() + (double)run.seconds;
    compare_open(run.seed, run.heap);
    edges();
    uint64_t asked = compared();
    dice.state = run.seed;
    while (run.seconds == 0 ? compared() - asked < run.inputs : seconds_now() < until)
        step();
    if (run.answers)
        write_answers();
    unsigned missing = not_reached();
    printf("%" PRIu64 " inputs, 0 differences\n", compared());
    return missing != 0;
}
