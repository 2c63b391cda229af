/*
 * Each answer's size and offsets, as the header declares them and as the compiled library writes them: each function
 * is called with inputs that give every member a value of its own, and the bytes of the answer are looked at.
 */
#include <inttypes.h>
#include <stdio.h>
#include <string.h>

#include "make.h"
#include "ulm.h"

/* ---- As the header declares them ---- */

#define SIZE(type, bytes) _Static_assert(sizeof(type) == (bytes), #type)
#define AT(type, member, at) _Static_assert(offsetof(type, member) == (at), #type "." #member)

SIZE(ulm_frame_answer, 40);
AT(ulm_frame_answer, refusal, 0);
AT(ulm_frame_answer, found, 4);
AT(ulm_frame_answer, kind, 8);
AT(ulm_frame_answer, second, 12);
AT(ulm_frame_answer, start, 16);
AT(ulm_frame_answer, size, 24);
AT(ulm_frame_answer, next, 32);

SIZE(ulm_header_answer, 36);
AT(ulm_header_answer, refusal, 0);
AT(ulm_header_answer, size, 4);
AT(ulm_header_answer, channel, 8);
AT(ulm_header_answer, type, 12);
AT(ulm_header_answer, sequence, 16);
AT(ulm_header_answer, date, 20);
AT(ulm_header_answer, ms, 24);
AT(ulm_header_answer, segments, 28);
AT(ulm_header_answer, number, 32);

SIZE(ulm_set_answer, 48);
AT(ulm_set_answer, refusal, 0);
AT(ulm_set_answer, size, 4);
AT(ulm_set_answer, channel, 8);
AT(ulm_set_answer, type, 12);
AT(ulm_set_answer, sequence, 16);
AT(ulm_set_answer, date, 20);
AT(ulm_set_answer, ms, 24);
AT(ulm_set_answer, segments, 28);
AT(ulm_set_answer, number, 32);
AT(ulm_set_answer, length, 40);

SIZE(ulm_salvage_answer, 32);
AT(ulm_salvage_answer, refusal, 0);
AT(ulm_salvage_answer, kept, 8);
AT(ulm_salvage_answer, length, 16);
AT(ulm_salvage_answer, runs, 24);

SIZE(ulm_written_answer, 16);
AT(ulm_written_answer, refusal, 0);
AT(ulm_written_answer, length, 8);

SIZE(ulm_radial_answer, 60);
AT(ulm_radial_answer, refusal, 0);
AT(ulm_radial_answer, station, 4);
AT(ulm_radial_answer, time, 8);
AT(ulm_radial_answer, date, 12);
AT(ulm_radial_answer, azimuth_number, 16);
AT(ulm_radial_answer, azimuth, 20);
AT(ulm_radial_answer, radial_length, 24);
AT(ulm_radial_answer, spacing, 28);
AT(ulm_radial_answer, status, 32);
AT(ulm_radial_answer, elevation_number, 36);
AT(ulm_radial_answer, sector, 40);
AT(ulm_radial_answer, elevation, 44);
AT(ulm_radial_answer, blanking, 48);
AT(ulm_radial_answer, indexing, 52);
AT(ulm_radial_answer, blocks, 56);

SIZE(ulm_block_answer, 72);
AT(ulm_block_answer, refusal, 0);
AT(ulm_block_answer, found, 4);
AT(ulm_block_answer, name, 8);
AT(ulm_block_answer, reserved, 12);
AT(ulm_block_answer, gates, 16);
AT(ulm_block_answer, first, 20);
AT(ulm_block_answer, interval, 24);
AT(ulm_block_answer, overlay, 28);
AT(ulm_block_answer, noise, 32);
AT(ulm_block_answer, flags, 36);
AT(ulm_block_answer, word, 40);
AT(ulm_block_answer, scale, 44);
AT(ulm_block_answer, offset, 48);
AT(ulm_block_answer, start, 56);
AT(ulm_block_answer, size, 64);

SIZE(ulm_gates_answer, 48);
AT(ulm_gates_answer, refusal, 0);
AT(ulm_gates_answer, gates, 4);
AT(ulm_gates_answer, word, 8);
AT(ulm_gates_answer, scale, 12);
AT(ulm_gates_answer, offset, 16);
AT(ulm_gates_answer, first, 20);
AT(ulm_gates_answer, interval, 24);
AT(ulm_gates_answer, start, 32);
AT(ulm_gates_answer, size, 40);

SIZE(ulm_gate_answer, 12);
AT(ulm_gate_answer, refusal, 0);
AT(ulm_gate_answer, kind, 4);
AT(ulm_gate_answer, value, 8);

SIZE(ulm_request_answer, 8);
AT(ulm_request_answer, refusal, 0);
AT(ulm_request_answer, code, 4);

SIZE(ulm_censor_answer, 308);
AT(ulm_censor_answer, refusal, 0);
AT(ulm_censor_answer, count, 4);
AT(ulm_censor_answer, regions, 8);
_Static_assert(sizeof((ulm_censor_answer){ 0 }.regions) == 300, "150 halfwords");

SIZE(ulm_map_answer, 16);
AT(ulm_map_answer, refusal, 0);
AT(ulm_map_answer, date, 4);
AT(ulm_map_answer, minutes, 8);
AT(ulm_map_answer, elevations, 12);

SIZE(ulm_map_code_answer, 8);
AT(ulm_map_code_answer, refusal, 0);
AT(ulm_map_code_answer, code, 4);

SIZE(ulm_comparison_answer, 16);
AT(ulm_comparison_answer, refusal, 0);
AT(ulm_comparison_answer, old_elevations, 4);
AT(ulm_comparison_answer, new_elevations, 8);
AT(ulm_comparison_answer, differences, 12);

/* ---- As the library writes them ---- */

/* What stands where in an answer; a list ends with width 0. */
struct member {
    size_t at;
    unsigned wide;
    uint64_t value;
};

static int failed;

static void fail(const char *function, const char *what, size_t at, uint64_t found, uint64_t wanted)
{
    printf("%s: %s at byte %zu: %" PRIu64 ", not %" PRIu64 "\n", function, what, at, found, wanted);
    failed = 1;
}

/* The number of that width at a place of an answer, in this machine's byte order. */
static uint64_t member_at(const uint8_t *answer, const struct member *m)
{
    uint16_t x16;
    uint32_t x32;
    uint64_t x64;
    memcpy(&x16, answer + m->at, sizeof x16);
    memcpy(&x32, answer + m->at, sizeof x32);
    memcpy(&x64, answer + m->at, sizeof x64);
    return m->wide == 2 ? x16 : m->wide == 4 ? x32 : x64;
}

static void check_members(const char *function, const uint8_t *answer, const struct member *m)
{
    for (; m->wide != 0; m++)
        if (member_at(answer, m) != m->value)
            fail(function, "member", m->at, member_at(answer, m), m->value);
}

enum { ROOM = 1024 };

/* An answer above 16 bytes is written where the caller's hidden first argument points (System V ABI, x86-64). Here that
 * argument is given openly, so that every byte the library writes is seen: the members, whatever stood there before,
 * and nothing past the size. */
static void check_written(const char *function, void (*call)(void *to), size_t size, const struct member *m)
{
    static const uint8_t before[] = { 0xA5, 0x5A };
    for (size_t k = 0; k < sizeof before; k++) {
        uint8_t answer[ROOM];
        memset(answer, before[k], sizeof answer);
        call(answer);
        check_members(function, answer, m);
        for (size_t i = size; i < sizeof answer; i++)
            if (answer[i] != before[k])
                fail(function, "byte past the answer", i, answer[i], before[k]);
    }
}

/* An answer of up to 16 bytes comes in registers. */
#define CHECK_RETURNED(call, ...)                                                                                      \
    do {                                                                                                               \
        uint8_t answer[ROOM] = { 0 };                                                                                  \
        memcpy(answer, &(call), sizeof(call));                                                                         \
        check_members(#call, answer, (const struct member[]){ __VA_ARGS__, { 0, 0, 0 } });                             \
    } while (0)

#define CHECK_WRITTEN(function, call, size, ...)                                                                       \
    check_written(function, call, size, (const struct member[]){ __VA_ARGS__, { 0, 0, 0 } })

void openly_frame(void *, const uint8_t *, size_t, size_t) __asm__("ulm_frame");
void openly_header(void *, const uint8_t *, size_t) __asm__("ulm_header");
void openly_set(void *, const uint8_t *, size_t, uint8_t *, size_t) __asm__("ulm_set");
void openly_salvage(void *, const uint8_t *, size_t, uint8_t *, size_t, uint64_t *, size_t) __asm__("ulm_salvage");
void openly_radial(void *, const uint8_t *, size_t) __asm__("ulm_radial");
void openly_block(void *, const uint8_t *, size_t, uint32_t) __asm__("ulm_block");
void openly_gates(void *, const uint8_t *, size_t, uint32_t) __asm__("ulm_gates");
void openly_censor(void *, const uint8_t *, size_t) __asm__("ulm_censor");

/* ---- Inputs that give every member a value of its own ---- */

static uint8_t out[64];

static uint8_t stream[64];

static void call_frame(void *to)
{
    openly_frame(to, stream, 5 + 12 + 21 + 2, 5);
}

static void call_frame_at_end(void *to)
{
    openly_frame(to, stream, 40, 40);
}

static void call_frame_refused(void *to)
{
    openly_frame(to, stream, 39, 33);
}

static void check_frame(void)
{
    uint8_t body[21] = { 0 };
    make_frame(stream + 5, 3, 0x01020304, body, sizeof body);
    CHECK_WRITTEN("ulm_frame", call_frame, 40, { 0, 4, 0 }, { 4, 4, 1 }, { 8, 4, 3 }, { 12, 4, 0x01020304 },
                  { 16, 8, 17 }, { 24, 8, 21 }, { 32, 8, 38 });
    CHECK_WRITTEN("ulm_frame, the end", call_frame_at_end, 40, { 0, 4, 0 }, { 4, 4, 0 }, { 8, 4, 0 }, { 12, 4, 0 },
                  { 16, 8, 0 }, { 24, 8, 0 }, { 32, 8, 40 });
    CHECK_WRITTEN("ulm_frame, refused", call_frame_refused, 40, { 0, 4, 1 }, { 4, 4, 0 }, { 8, 4, 0 }, { 12, 4, 0 },
                  { 16, 8, 0 }, { 24, 8, 0 }, { 32, 8, 33 });
}

static uint8_t segments[64];
static size_t segments_size;

static void call_header(void *to)
{
    openly_header(to, segments + 12, 20);
}

static void call_header_refused(void *to)
{
    openly_header(to, segments + 12, 15);
}

static void check_header(void)
{
    struct make_segment s = { 200, 13, 0x1234, 0x5678, 0x01234567, 77, 55 };
    make_segment(segments, &s, (const uint8_t *)"abcd", 4);
    CHECK_WRITTEN("ulm_header", call_header, 36, { 0, 4, 0 }, { 4, 4, 10 }, { 8, 4, 200 }, { 12, 4, 13 },
                  { 16, 4, 0x1234 }, { 20, 4, 0x5678 }, { 24, 4, 0x01234567 }, { 28, 4, 77 }, { 32, 4, 55 });
    CHECK_WRITTEN("ulm_header, refused", call_header_refused, 36, { 0, 4, 4 }, { 4, 4, 0 }, { 8, 4, 0 }, { 12, 4, 0 },
                  { 16, 4, 0 }, { 20, 4, 0 }, { 24, 4, 0 }, { 28, 4, 0 }, { 32, 4, 0 });
}

static void call_set(void *to)
{
    openly_set(to, segments, segments_size, out, sizeof out);
}

static void call_set_refused(void *to)
{
    openly_set(to, segments, segments_size, out, 5);
}

static void check_set(void)
{
    struct make_segment s = { 200, 13, 0x4321, 0x5678, 0x01234567, 2, 2 };
    segments_size = make_segment(segments, &s, (const uint8_t *)"ef", 2);
    s.sequence = 0x1234;
    s.number = 1;
    segments_size += make_segment(segments + segments_size, &s, (const uint8_t *)"abcd", 4);
    CHECK_WRITTEN("ulm_set", call_set, 48, { 0, 4, 0 }, { 4, 4, 10 }, { 8, 4, 200 }, { 12, 4, 13 }, { 16, 4, 0x1234 },
                  { 20, 4, 0x5678 }, { 24, 4, 0x01234567 }, { 28, 4, 2 }, { 32, 4, 1 }, { 40, 8, 6 });
    if (memcmp(out, "abcdef", 6) != 0)
        fail("ulm_set", "joined data", 0, out[0], 'a');
    CHECK_WRITTEN("ulm_set, refused", call_set_refused, 48, { 0, 4, 13 }, { 4, 4, 0 }, { 8, 4, 0 }, { 12, 4, 0 },
                  { 16, 4, 0 }, { 20, 4, 0 }, { 24, 4, 0 }, { 28, 4, 0 }, { 32, 4, 0 }, { 40, 8, 0 });
}

static uint8_t recording[96];
static size_t recording_size;
static uint64_t runs[7];

static void call_salvage(void *to)
{
    openly_salvage(to, recording, recording_size, out, sizeof out, runs, 6);
}

static void call_salvage_small_output(void *to)
{
    openly_salvage(to, recording, recording_size, out, 57, runs, 6);
}

static void call_salvage_few_runs(void *to)
{
    openly_salvage(to, recording, recording_size, out, 58, runs, 5);
}

/* Two frames between runs of 3, 5 and 7 bytes. */
static void check_salvage(void)
{
    static const uint64_t wanted[] = { 0, 3, 31, 5, 66, 7, 99 };
    struct make_segment s = { 200, 13, 0x1234, 0x5678, 0x01234567, 77, 55 };
    uint8_t kept[59];
    memset(kept, 0xA5, sizeof kept);
    memcpy(recording + 3, kept, make_segment(kept, &s, NULL, 0));
    memcpy(recording + 36, kept + 28, make_segment(kept + 28, &s, (const uint8_t *)"ab", 2));
    recording_size = 73;
    memset(out, 0xA5, sizeof out);
    runs[6] = 99;
    CHECK_WRITTEN("ulm_salvage", call_salvage, 32, { 0, 4, 0 }, { 8, 8, 2 }, { 16, 8, 58 }, { 24, 8, 3 });
    for (size_t i = 0; i < 7; i++)
        if (runs[i] != wanted[i])
            fail("ulm_salvage", "list of runs", 8 * i, runs[i], wanted[i]);
    for (size_t i = 0; i < sizeof kept; i++)
        if (out[i] != kept[i])
            fail("ulm_salvage", "output", i, out[i], kept[i]);
    CHECK_WRITTEN("ulm_salvage, refused for the output", call_salvage_small_output, 32, { 0, 4, 13 }, { 8, 8, 0 },
                  { 16, 8, 0 }, { 24, 8, 0 });
    CHECK_WRITTEN("ulm_salvage, refused for the runs", call_salvage_few_runs, 32, { 0, 4, 13 }, { 8, 8, 0 },
                  { 16, 8, 0 }, { 24, 8, 0 });
}

/* Every argument of the writer is seen in what it writes. */
static void check_write(void)
{
    struct make_segment s = { 200, 13, 0x1234, 0x5678, 0x01234567, 1, 1 };
    uint8_t wanted[64];
    size_t n = make_segment(wanted, &s, (const uint8_t *)"abcd", 4);
    memset(out, 0xA5, sizeof out);
    ulm_written_answer accepted
        = ulm_write(200, 13, 0x1234, 0x5678, 0x01234567, (const uint8_t *)"abcd", 4, out, sizeof out);
    CHECK_RETURNED(accepted, { 0, 4, 0 }, { 8, 8, 32 });
    if (memcmp(out, wanted, n) != 0 || out[n] != 0xA5)
        fail("ulm_write", "output", 0, out[n], 0xA5);
    ulm_written_answer refused = ulm_write(200, 13, 0x1234, 0x5678, 0x01234567, wanted, 3, out, sizeof out);
    CHECK_RETURNED(refused, { 0, 4, 25 }, { 8, 8, 0 });
}

static uint8_t body[512];
static size_t body_size;

/* A radial whose numbers all differ; its one moment has three gates of 16 bits. */
static void make_body(void)
{
    struct make_radial r = { .constant = { 45, 13, 29 }, .moments = 1, .gap = { 1, 2, 3, 4 } };
    struct chance c = { 1 };
    r.moment[0] = (struct make_moment){ ULM_DSW, 3, 16, 0x40000000, 0x42840000 };
    body_size = make_radial(body, &r, &c);
    for (uint8_t i = 0; i < 30; i++)
        if (i < 16 || i >= 20)
            body[i] = i + 1;
    uint8_t *moment = body + get(body + 32 + 12, 4);
    put(moment + 4, 4, 0x0A0B0C0D);
    for (unsigned at = 10; at < 18; at += 2)
        put(moment + at, 2, 1000 + at);
    moment[18] = 77;
    put(moment + 28, 2, 255);
    put(moment + 30, 2, 0);
    put(moment + 32, 2, 1);
}

static void call_radial(void *to)
{
    openly_radial(to, body, body_size);
}

static void call_radial_refused(void *to)
{
    openly_radial(to, body, 67);
}

static void check_radial(void)
{
    CHECK_WRITTEN("ulm_radial", call_radial, 60, { 0, 4, 0 }, { 4, 4, 0x01020304 }, { 8, 4, 0x05060708 },
                  { 12, 4, 0x090A }, { 16, 4, 0x0B0C }, { 20, 4, 0x0D0E0F10 }, { 24, 4, body_size }, { 28, 4, 21 },
                  { 32, 4, 22 }, { 36, 4, 23 }, { 40, 4, 24 }, { 44, 4, 0x191A1B1C }, { 48, 4, 29 }, { 52, 4, 30 },
                  { 56, 4, 4 });
    CHECK_WRITTEN("ulm_radial, refused", call_radial_refused, 60, { 0, 4, 14 }, { 4, 4, 0 }, { 8, 4, 0 }, { 12, 4, 0 },
                  { 16, 4, 0 }, { 20, 4, 0 }, { 24, 4, 0 }, { 28, 4, 0 }, { 32, 4, 0 }, { 36, 4, 0 }, { 40, 4, 0 },
                  { 44, 4, 0 }, { 48, 4, 0 }, { 52, 4, 0 }, { 56, 4, 0 });
}

static uint32_t block;

static void call_block(void *to)
{
    openly_block(to, body, body_size, block);
}

static void check_blocks(void)
{
    block = 4;
    CHECK_WRITTEN("ulm_block, a moment", call_block, 72, { 0, 4, 0 }, { 4, 4, 1 }, { 8, 4, ULM_DSW },
                  { 12, 4, 0x0A0B0C0D }, { 16, 4, 3 }, { 20, 4, 1010 }, { 24, 4, 1012 }, { 28, 4, 1014 },
                  { 32, 4, 1016 }, { 36, 4, 77 }, { 40, 4, 16 }, { 44, 4, 0x40000000 }, { 48, 4, 0x42840000 },
                  { 56, 8, 165 }, { 64, 8, 34 });
    block = 3;
    CHECK_WRITTEN("ulm_block, a constant", call_block, 72, { 0, 4, 0 }, { 4, 4, 1 }, { 8, 4, ULM_RRAD }, { 12, 4, 0 },
                  { 16, 4, 0 }, { 20, 4, 0 }, { 24, 4, 0 }, { 28, 4, 0 }, { 32, 4, 0 }, { 36, 4, 0 }, { 40, 4, 0 },
                  { 44, 4, 0 }, { 48, 4, 0 }, { 56, 8, 132 }, { 64, 8, 29 });
    block = 5;
    CHECK_WRITTEN("ulm_block, none", call_block, 72, { 0, 4, 0 }, { 4, 4, 0 }, { 8, 4, 0 }, { 12, 4, 0 }, { 16, 4, 0 },
                  { 20, 4, 0 }, { 24, 4, 0 }, { 28, 4, 0 }, { 32, 4, 0 }, { 36, 4, 0 }, { 40, 4, 0 }, { 44, 4, 0 },
                  { 48, 4, 0 }, { 56, 8, 0 }, { 64, 8, 0 });
}

static uint32_t name;

static void call_gates(void *to)
{
    openly_gates(to, body, body_size, name);
}

static void check_gates(void)
{
    name = ULM_DSW;
    CHECK_WRITTEN("ulm_gates", call_gates, 48, { 0, 4, 0 }, { 4, 4, 3 }, { 8, 4, 16 }, { 12, 4, 0x40000000 },
                  { 16, 4, 0x42840000 }, { 20, 4, 1010 }, { 24, 4, 1012 }, { 32, 8, 165 + 28 }, { 40, 8, 6 });
    name = ULM_DREF;
    CHECK_WRITTEN("ulm_gates, refused", call_gates, 48, { 0, 4, 21 }, { 4, 4, 0 }, { 8, 4, 0 }, { 12, 4, 0 },
                  { 16, 4, 0 }, { 20, 4, 0 }, { 24, 4, 0 }, { 32, 8, 0 }, { 40, 8, 0 });
}

#define BITS_OF_94_5 0x42BD0000

static void check_gate(void)
{
    ulm_gate_answer value = ulm_gate(body, body_size, ULM_DSW, 0);
    CHECK_RETURNED(value, { 0, 4, 0 }, { 4, 4, ULM_GATE_VALUE }, { 8, 4, BITS_OF_94_5 });
    ulm_gate_answer threshold = ulm_gate(body, body_size, ULM_DSW, 1);
    CHECK_RETURNED(threshold, { 0, 4, 0 }, { 4, 4, ULM_GATE_BELOW_THRESHOLD }, { 8, 4, 0 });
    ulm_gate_answer folded = ulm_gate(body, body_size, ULM_DSW, 2);
    CHECK_RETURNED(folded, { 0, 4, 0 }, { 4, 4, ULM_GATE_RANGE_FOLDED }, { 8, 4, 0 });
    ulm_gate_answer refused = ulm_gate(body, body_size, ULM_DSW, 3);
    CHECK_RETURNED(refused, { 0, 4, 21 }, { 4, 4, 0 }, { 8, 4, 0 });
}

static void check_value(void)
{
    ulm_gate_answer value = ulm_value(255, 0x40000000, 0x42840000);
    CHECK_RETURNED(value, { 0, 4, 0 }, { 4, 4, ULM_GATE_VALUE }, { 8, 4, BITS_OF_94_5 });
    ulm_gate_answer folded = ulm_value(1, 0x40000000, 0x42840000);
    CHECK_RETURNED(folded, { 0, 4, 0 }, { 4, 4, ULM_GATE_RANGE_FOLDED }, { 8, 4, 0 });
    ulm_gate_answer refused = ulm_value(255, 0, 0x42840000);
    CHECK_RETURNED(refused, { 0, 4, 22 }, { 4, 4, 0 }, { 8, 4, 0 });
}

static void check_request(void)
{
    ulm_request_answer read = ulm_request((const uint8_t *)"\0\220", 2);
    CHECK_RETURNED(read, { 0, 4, 0 }, { 4, 4, 144 });
    ulm_request_answer refused = ulm_request((const uint8_t *)"\0\221", 2);
    CHECK_RETURNED(refused, { 0, 4, 24 }, { 4, 4, 0 });
    const uint16_t list[] = { 144, 1 };
    ulm_written_answer written = ulm_write_request(list, 1, out, sizeof out);
    CHECK_RETURNED(written, { 0, 4, 0 }, { 8, 8, 2 });
    if (memcmp(out, "\0\220", 2) != 0)
        fail("ulm_write_request", "output", 1, out[1], 144);
    ulm_written_answer not_written = ulm_write_request(list, 2, out, sizeof out);
    CHECK_RETURNED(not_written, { 0, 4, 23 }, { 8, 8, 0 });
}

static uint16_t censor_list[151];
static uint8_t censor_bytes[302];
static size_t censor_size;

static void call_censor(void *to)
{
    openly_censor(to, censor_bytes, censor_size);
}

static void check_censor(void)
{
    struct chance c = { 2 };
    struct member members[153] = { { 0, 4, 0 }, { 4, 4, 25 } }, refused[153] = { { 0, 4, 23 }, { 4, 4, 0 } };
    make_censor(censor_list, 25, &c);
    for (size_t i = 0; i < 150; i++) {
        members[2 + i] = (struct member){ 8 + 2 * i, 2, censor_list[1 + i] };
        refused[2 + i] = (struct member){ 8 + 2 * i, 2, 0 };
    }
    ulm_written_answer written = ulm_write_censor(censor_list, 151, censor_bytes, sizeof censor_bytes);
    CHECK_RETURNED(written, { 0, 4, 0 }, { 8, 8, 302 });
    for (size_t i = 0; i < 151; i++)
        if (get(censor_bytes + 2 * i, 2) != censor_list[i])
            fail("ulm_write_censor", "output", 2 * i, get(censor_bytes + 2 * i, 2), censor_list[i]);
    censor_size = 302;
    check_written("ulm_censor", call_censor, 308, members);
    censor_size = 301;
    check_written("ulm_censor, refused", call_censor, 308, refused);
}

static void check_map(void)
{
    static uint8_t map[147606];
    struct chance c = { 3 };
    size_t n = make_map(map, 2, 1, &c);
    put(map, 2, 16000);
    put(map + 2, 2, 1440);
    put(map + 6 + 6 * 360 + 2, 2, 2); /* elevation 2, azimuth 0 */
    ulm_map_answer read = ulm_map(map, n);
    CHECK_RETURNED(read, { 0, 4, 0 }, { 4, 4, 16000 }, { 8, 4, 1440 }, { 12, 4, 2 });
    ulm_map_answer refused = ulm_map(map, 0);
    CHECK_RETURNED(refused, { 0, 4, 23 }, { 4, 4, 0 }, { 8, 4, 0 }, { 12, 4, 0 });
    ulm_map_code_answer code = ulm_map_code(map, n, 2, 0, 511);
    CHECK_RETURNED(code, { 0, 4, 0 }, { 4, 4, 2 });
    ulm_map_code_answer no_code = ulm_map_code(map, n, 3, 0, 511);
    CHECK_RETURNED(no_code, { 0, 4, 21 }, { 4, 4, 0 });
}

/* One difference, at elevation 3 and azimuth 4: its six numbers all differ. */
static void check_comparison(void)
{
    static uint8_t old_map[6 + 6 * 360 * 4], new_map[6 + 6 * 360 * 3];
    static const uint16_t wanted[] = { 3, 4, 0, 511, 1, 2, 0xA5A5 };
    uint16_t list[7];
    struct chance c = { 4 };
    size_t zone = 6 + 6 * (360 * 2 + 4) + 2;
    make_map(old_map, 4, 1, &c);
    put(old_map + zone, 2, 1);
    memcpy(new_map, old_map, sizeof new_map);
    put(new_map + 4, 2, 3);
    put(new_map + zone, 2, 2);
    memset(list, 0xA5, sizeof list);
    ulm_comparison_answer compared = ulm_compare_maps(old_map, sizeof old_map, new_map, sizeof new_map, list, 6);
    CHECK_RETURNED(compared, { 0, 4, 0 }, { 4, 4, 4 }, { 8, 4, 3 }, { 12, 4, 1 });
    for (size_t i = 0; i < 7; i++)
        if (list[i] != wanted[i])
            fail("ulm_compare_maps", "list", 2 * i, list[i], wanted[i]);
    ulm_comparison_answer refused = ulm_compare_maps(old_map, sizeof old_map, new_map, sizeof new_map, list, 5);
    CHECK_RETURNED(refused, { 0, 4, 13 }, { 4, 4, 0 }, { 8, 4, 0 }, { 12, 4, 0 });
}

int main(void)
{
    make_body();
    check_frame();
    check_header();
    check_set();
    check_salvage();
    check_write();
    check_radial();
    check_blocks();
    check_gates();
    check_gate();
    check_value();
    check_request();
    check_censor();
    check_map();
    check_comparison();
    if (!failed)
        printf("17 functions, every member in its place\n");
    return failed;
}
