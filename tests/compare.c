#define _POSIX_C_SOURCE 200809L
#include "compare.h"

#include <inttypes.h>
#include <signal.h>
#include <stdio.h>
#include <stdlib.h>
#include <string.h>
#include <unistd.h>

#include "bytewise.h"
#include "kilometres.h"
#include "lend.h"
#include "make.h"
#include "plain.h"
#include "ulm.h"

/* ---- The entries, and the refusals that each can give ---- */

enum entry {
    FRAME, HEADER, SET, SALVAGE, WRITE, RADIAL, BLOCK, GATES, GATE, VALUE, REQUEST, WRITE_REQUEST, CENSOR, WRITE_CENSOR,
    MAP, MAP_CODE, COMPARE, ENTRIES
};

enum { LAST_REFUSAL = 26 };

#define FROM(a, b) ((UINT32_C(2) << (b)) - (UINT32_C(1) << (a))) /* a bit for each number a to b */
#define ONLY(a) FROM(a, a)

/* `arguments` is how a question is written, as in a file of cases: n a number, x four bytes; then the bytes, if any. */
static const struct {
    const char *name, *arguments;
    uint32_t refusals;
} entries[ENTRIES] = {
    [FRAME] = { "frame", "n", FROM(1, 3) },
    [HEADER] = { "header", "", FROM(4, 8) },
    [SET] = { "set", "n", FROM(1, 13) },
    [SALVAGE] = { "salvage", "nn", ONLY(13) },
    [WRITE] = { "write", "nnnnnn", ONLY(6) | ONLY(8) | ONLY(13) | FROM(25, 26) },
    [RADIAL] = { "radial", "", FROM(14, 20) },
    [BLOCK] = { "block", "n", FROM(14, 20) },
    [GATES] = { "gates", "x", FROM(14, 21) },
    [GATE] = { "gate", "xn", FROM(14, 22) },
    [VALUE] = { "value", "nxx", ONLY(22) },
    [REQUEST] = { "request", "", FROM(23, 24) },
    [WRITE_REQUEST] = { "write-request", "n", ONLY(13) | FROM(23, 24) },
    [CENSOR] = { "censor", "", FROM(23, 24) },
    [WRITE_CENSOR] = { "write-censor", "n", ONLY(13) | FROM(23, 24) },
    [MAP] = { "map", "", FROM(23, 24) },
    [MAP_CODE] = { "map-code", "nnn", ONLY(21) | FROM(23, 24) },
    [COMPARE] = { "compare", "n", ONLY(13) | FROM(23, 24) },
};

static uint64_t answers[ENTRIES][LAST_REFUSAL + 1];
static uint64_t inputs, seed_of_run;

/* ---- The question that is being asked ---- */

enum { MOST_FIELDS = 16 };

static struct {
    enum entry entry;
    uint64_t numbers[6];
    const void *bytes;     /* the input; only VALUE has none */
    size_t n;              /* in bytes */
    int halfwords;         /* the input is a list of them */
    const uint8_t *second; /* the other input; only COMPARE has one */
    size_t second_n;
    const char *side;      /* who is asked, for a fault */
    size_t fields;
    struct {
        const char *name;
        uint64_t plain, ulm;
    } field[MOST_FIELDS];
} now;

static void write_input(const uint8_t *bytes, size_t n)
{
    printf(" x");
    for (size_t i = 0; i < n; i++)
        printf("%02x", bytes[now.halfwords ? i ^ 1 : i]); /* a halfword's high byte first */
}

static void write_question(void)
{
    printf("%s", entries[now.entry].name);
    for (size_t i = 0; entries[now.entry].arguments[i] != 0; i++)
        printf(entries[now.entry].arguments[i] == 'x' ? " x%08" PRIx64 : " %" PRIu64, now.numbers[i]);
    if (now.entry != VALUE)
        write_input(now.bytes, now.n);
    if (now.entry == COMPARE)
        write_input(now.second, now.second_n);
    printf("\n");
}

static void fail(const char *why)
{
    printf("seed %" PRIu64 ", input %" PRIu64 ": %s\n", seed_of_run, inputs + 1, why);
    write_question();
    for (size_t i = 0; i < now.fields; i++)
        printf("%-17s plain %-20" PRIu64 " libulm %-20" PRIu64 "%s\n", now.field[i].name, now.field[i].plain,
               now.field[i].ulm, now.field[i].plain == now.field[i].ulm ? "" : " differs");
    fflush(stdout);
    _exit(1);
}

static void fault(int signal)
{
    (void)signal;
    printf("a fault in %s\n", now.side);
    fail("memory was touched that was not lent, or the call didn't return");
}

/* ---- Lent memory ---- */

static struct lent input, second;
static struct chance ways;
static int heap;

/* An output: what it holds before the call, and what the plain implementation makes of it. */
static struct output {
    struct lent lent;
    const uint8_t *contents;
    _Alignas(uint64_t) uint8_t expected[MOST_BYTES];
} output, runs; /* only SALVAGE has the other one */

static uint8_t before[MOST_BYTES];

void compare_open(uint64_t seed, int on_heap)
{
    struct sigaction action = { .sa_handler = fault };
    sigaction(SIGSEGV, &action, NULL);
    sigaction(SIGBUS, &action, NULL);
    sigaction(SIGILL, &action, NULL);
    sigaction(SIGFPE, &action, NULL);
    lent_open(&input, MOST_BYTES);
    lent_open(&second, MOST_BYTES);
    lent_open(&output.lent, MOST_BYTES);
    lent_open(&runs.lent, MOST_BYTES);
    seed_of_run = seed;
    ways.state = ~seed;
    heap = on_heap;
    fill(&ways, before, sizeof before);
}

static enum way any_way(void)
{
    return heap ? ON_HEAP : (enum way)below(&ways, ON_HEAP);
}

static void ask(enum entry entry, const void *bytes, size_t n, uint64_t a, uint64_t b, uint64_t c)
{
    now.entry = entry;
    now.bytes = bytes;
    now.n = n;
    now.halfwords = entry == WRITE_REQUEST || entry == WRITE_CENSOR;
    now.numbers[0] = a;
    now.numbers[1] = b;
    now.numbers[2] = c;
    now.fields = 0;
    now.side = "the plain implementation";
}

static const uint8_t *lend_bytes(void)
{
    now.side = "libulm";
    return lend(&input, now.bytes, now.n, any_way(), (unsigned)below(&ways, 64));
}

static const uint8_t *lend_second(void)
{
    return lend(&second, now.second, now.second_n, any_way(), (unsigned)below(&ways, 64));
}

/* Aligns numbers of that many bytes each, unless there are none. */
static void *lend_numbers(struct lent *l, const void *bytes, size_t n, unsigned wide)
{
    unsigned odd = (unsigned)below(&ways, 64);
    return lend(l, bytes, n, any_way(), n == 0 ? odd : odd / wide * wide);
}

static const uint16_t *lend_list(void)
{
    now.side = "libulm";
    return lend_numbers(&input, now.bytes, now.n, sizeof(uint16_t));
}

/* What an output holds before a call is taken from one of 256 places, so that no byte is the same in all calls. */
static void *expect(struct output *o, size_t room)
{
    o->contents = before + below(&ways, 256 < sizeof before - room ? 256 : sizeof before - room + 1);
    memcpy(o->expected, o->contents, room);
    return room == 0 ? NULL : o->expected;
}

static void *lend_output(struct output *o, size_t room, unsigned wide)
{
    return lend_numbers(&o->lent, o->contents, room, wide);
}

/* ---- Comparing ---- */

static void same(const char *name, uint64_t plain, uint64_t ulm)
{
    now.field[now.fields].name = name;
    now.field[now.fields].plain = plain;
    now.field[now.fields].ulm = ulm;
    now.fields++;
}
#define SAME(name) same(#name, p.name, u.name)
#define SAME_EACH_HEADER                                                                                               \
    SAME(size), SAME(channel), SAME(type), SAME(sequence), SAME(date), SAME(ms), SAME(segments), SAME(number)

/* The first of n halfwords that differs, and its place. */
static void same_halfwords(const char *place, const char *name, const uint16_t *plain, const uint16_t *ulm, size_t n)
{
    for (size_t i = 0; i < n; i++)
        if (plain[i] != ulm[i]) {
            same(place, i, i);
            same(name, plain[i], ulm[i]);
            return;
        }
}

static void settle_input(struct lent *l, const void *bytes)
{
    if (l->n != 0 && memcmp(l->at, bytes, l->n) != 0)
        fail("an input was changed");
    if (!taken_back(l))
        fail("memory beside an input was changed");
}

static void settle_output(struct output *o, uint32_t refusal, uint64_t length)
{
    struct lent *l = &o->lent;
    size_t kept = refusal == 0 ? (size_t)length : 0, i = 0;
    if (kept > l->n || memcmp(l->at + kept, o->contents + kept, l->n - kept) != 0)
        fail("an output was changed on a refusal or past the reported length");
    if (memcmp(l->at, o->expected, l->n) != 0) {
        while (l->at[i] == o->expected[i])
            i++;
        same("output, at byte", i, i);
        same("output", o->expected[i], l->at[i]);
        fail("an output differs");
    }
    if (!taken_back(l))
        fail("memory beside an output was changed");
}

static void settle(void)
{
    for (size_t i = 0; i < now.fields; i++)
        if (now.field[i].plain != now.field[i].ulm)
            fail("the answers differ");
    if (now.entry != VALUE)
        settle_input(&input, now.bytes);
    if (now.entry == COMPARE)
        settle_input(&second, now.second);
    answers[now.entry][now.field[0].plain]++;
    inputs++;
}

void compare_frame(const uint8_t *buf, size_t n, uint64_t place)
{
    ask(FRAME, buf, n, place, 0, 0);
    plain_frame_answer p = plain_frame(buf, n, place);
    ulm_frame_answer u = ulm_frame(lend_bytes(), n, place);
    SAME(refusal), SAME(found), SAME(kind), SAME(second), SAME(start), SAME(size), SAME(next);
    settle();
}

void compare_header(const uint8_t *msg, size_t n)
{
    ask(HEADER, msg, n, 0, 0, 0);
    plain_header_answer p = plain_header(msg, n);
    ulm_header_answer u = ulm_header(lend_bytes(), n);
    SAME(refusal), SAME_EACH_HEADER;
    settle();
}

void compare_set(const uint8_t *buf, size_t n, size_t room)
{
    ask(SET, buf, n, room, 0, 0);
    plain_set_answer p = plain_set(buf, n, expect(&output, room), room);
    uint8_t *out = lend_output(&output, room, 1);
    ulm_set_answer u = ulm_set(lend_bytes(), n, out, room);
    SAME(refusal), SAME_EACH_HEADER, SAME(length);
    settle_output(&output, u.refusal, u.length);
    settle();
}

/* Whether the plain implementation left an output of that room with n bytes at its start and the rest as it was. */
static int left_with(const struct output *o, const void *bytes, size_t n, size_t room)
{
    return memcmp(o->expected, bytes, n) == 0 && memcmp(o->expected + n, o->contents + n, room - n) == 0;
}

/* Whether the plain implementation's answer, and what it left in both outputs, is what bytewise.c gives. */
static int as_bytewise(const uint8_t *buf, size_t n, size_t room, size_t numbers, plain_salvage_answer p)
{
    static uint8_t bytes[MOST_BYTES];
    static uint64_t list[2 * (MOST_BYTES / 29 + 1)];
    struct bytewise r = salvage_bytewise(buf, n, bytes, list);
    uint32_t refusal = r.length > room || 2 * r.runs > numbers ? 13 : 0;
    if (refusal != 0)
        r = (struct bytewise){ 0, 0, 0 };
    return p.refusal == refusal && p.kept == r.kept && p.length == r.length && p.runs == r.runs
           && left_with(&output, bytes, r.length, room)
           && left_with(&runs, list, 2 * r.runs * sizeof *list, numbers * sizeof *list);
}

void compare_salvage(const uint8_t *buf, size_t n, size_t room, size_t numbers)
{
    size_t runs_room = numbers * sizeof(uint64_t);
    ask(SALVAGE, buf, n, room, numbers / 2, 0);
    plain_salvage_answer p = plain_salvage(buf, n, expect(&output, room), room, expect(&runs, runs_room), numbers);
    if (!as_bytewise(buf, n, room, numbers, p))
        fail("the plain implementation's salvage is not that of single bytes");
    uint8_t *out = lend_output(&output, room, 1);
    uint64_t *list = lend_output(&runs, runs_room, sizeof *list);
    ulm_salvage_answer u = ulm_salvage(lend_bytes(), n, out, room, list, numbers);
    SAME(refusal), SAME(kept), SAME(length), SAME(runs), same("room, in numbers", numbers, numbers);
    settle_output(&output, u.refusal, u.length);
    settle_output(&runs, u.refusal, 2 * u.runs * sizeof *list);
    settle();
}

size_t compare_write(uint8_t channel, uint8_t type, uint16_t sequence, uint16_t date, uint32_t ms, const uint8_t *body,
                     size_t n, size_t room)
{
    ask(WRITE, body, n, channel, type, sequence);
    now.numbers[3] = date;
    now.numbers[4] = ms;
    now.numbers[5] = room;
    plain_written_answer p = plain_write(channel, type, sequence, date, ms, body, n, expect(&output, room), room);
    uint8_t *out = lend_output(&output, room, 1);
    ulm_written_answer u = ulm_write(channel, type, sequence, date, ms, lend_bytes(), n, out, room);
    SAME(refusal), SAME(length);
    settle_output(&output, u.refusal, u.length);
    settle();
    return p.length;
}

void compare_radial(const uint8_t *body, size_t n)
{
    ask(RADIAL, body, n, 0, 0, 0);
    plain_radial_answer p = plain_radial(body, n);
    ulm_radial_answer u = ulm_radial(lend_bytes(), n);
    SAME(refusal), SAME(station), SAME(time), SAME(date), SAME(azimuth_number), SAME(azimuth), SAME(radial_length);
    SAME(spacing), SAME(status), SAME(elevation_number), SAME(sector), SAME(elevation), SAME(blanking), SAME(indexing);
    SAME(blocks);
    settle();
}

void compare_block(const uint8_t *body, size_t n, uint32_t block)
{
    ask(BLOCK, body, n, block, 0, 0);
    plain_block_answer p = plain_block(body, n, block);
    ulm_block_answer u = ulm_block(lend_bytes(), n, block);
    SAME(refusal), SAME(found), SAME(name), SAME(reserved), SAME(gates), SAME(first), SAME(interval), SAME(overlay);
    SAME(noise), SAME(flags), SAME(word), SAME(scale), SAME(offset), SAME(start), SAME(size);
    settle();
}

void compare_gates(const uint8_t *body, size_t n, uint32_t name)
{
    ask(GATES, body, n, name, 0, 0);
    plain_gates_answer p = plain_gates(body, n, name);
    ulm_gates_answer u = ulm_gates(lend_bytes(), n, name);
    SAME(refusal), SAME(gates), SAME(word), SAME(scale), SAME(offset), SAME(first), SAME(interval), SAME(start);
    SAME(size);
    settle();
}

static uint64_t bits(float f)
{
    uint32_t x;
    memcpy(&x, &f, sizeof x);
    return x;
}

static void same_gate(plain_gate_answer p, ulm_gate_answer u)
{
    SAME(refusal), SAME(kind), same("value (bits)", bits(p.value), bits(u.value));
    settle();
}

void compare_gate(const uint8_t *body, size_t n, uint32_t name, uint64_t gate)
{
    ask(GATE, body, n, name, gate, 0);
    plain_gate_answer p = plain_gate(body, n, name, gate);
    same_gate(p, ulm_gate(lend_bytes(), n, name, gate));
}

void compare_value(uint16_t code, uint32_t scale, uint32_t offset)
{
    ask(VALUE, NULL, 0, code, scale, offset);
    plain_gate_answer p = plain_value(code, scale, offset);
    now.side = "libulm";
    same_gate(p, ulm_value(code, scale, offset));
}

void compare_request(const uint8_t *body, size_t n)
{
    ask(REQUEST, body, n, 0, 0, 0);
    plain_request_answer p = plain_request(body, n);
    ulm_request_answer u = ulm_request(lend_bytes(), n);
    SAME(refusal), SAME(code);
    settle();
}

static void same_list_written(plain_written_answer p, ulm_written_answer u)
{
    SAME(refusal), SAME(length);
    settle_output(&output, u.refusal, u.length);
    settle();
}

void compare_write_request(const uint16_t *list, size_t n, size_t room)
{
    ask(WRITE_REQUEST, list, 2 * n, room, 0, 0);
    plain_written_answer p = plain_write_request(list, n, expect(&output, room), room);
    uint8_t *out = lend_output(&output, room, 1);
    same_list_written(p, ulm_write_request(lend_list(), n, out, room));
}

void compare_censor(const uint8_t *body, size_t n)
{
    ask(CENSOR, body, n, 0, 0, 0);
    plain_censor_answer p = plain_censor(body, n);
    ulm_censor_answer u = ulm_censor(lend_bytes(), n);
    SAME(refusal), SAME(count);
    same_halfwords("regions from 0, at", "regions", p.regions, u.regions, 150);
    settle();
}

void compare_write_censor(const uint16_t *list, size_t n, size_t room)
{
    ask(WRITE_CENSOR, list, 2 * n, room, 0, 0);
    plain_written_answer p = plain_write_censor(list, n, expect(&output, room), room);
    uint8_t *out = lend_output(&output, room, 1);
    same_list_written(p, ulm_write_censor(lend_list(), n, out, room));
}

void compare_map(const uint8_t *body, size_t n)
{
    ask(MAP, body, n, 0, 0, 0);
    plain_map_answer p = plain_map(body, n);
    ulm_map_answer u = ulm_map(lend_bytes(), n);
    SAME(refusal), SAME(date), SAME(minutes), SAME(elevations);
    settle();
}

void compare_map_code(const uint8_t *body, size_t n, uint64_t elevation, uint64_t azimuth, uint64_t kilometre)
{
    ask(MAP_CODE, body, n, elevation, azimuth, kilometre);
    plain_map_code_answer p = plain_map_code(body, n, elevation, azimuth, kilometre);
    ulm_map_code_answer u = ulm_map_code(lend_bytes(), n, elevation, azimuth, kilometre);
    SAME(refusal), SAME(code);
    settle();
}

/* Whether the plain implementation's list, or its refusal where there is no room, is what kilometres.c gives. */
static int as_by_kilometres(const uint8_t *old_map, const uint8_t *new_map, size_t room, plain_comparison_answer p)
{
    static uint16_t list[MAP_HALFWORDS];
    size_t n = list_by_kilometres(old_map, new_map, list);
    if (n > room)
        return p.refusal == 13;
    return p.refusal == 0 && n == 6 * p.differences && memcmp(list, output.expected, 2 * n) == 0;
}

size_t compare_comparison(const uint8_t *old_map, size_t old_n, const uint8_t *new_map, size_t new_n, size_t room)
{
    ask(COMPARE, old_map, old_n, room, 0, 0);
    now.second = new_map;
    now.second_n = new_n;
    const uint16_t *wanted = (const uint16_t *)(const void *)output.expected;
    plain_comparison_answer p = plain_compare_maps(old_map, old_n, new_map, new_n, expect(&output, 2 * room), room);
    if ((p.refusal == 0 || p.refusal == 13) && !as_by_kilometres(old_map, new_map, room, p))
        fail("the plain implementation's differences are not those of single kilometres");
    uint16_t *out = lend_output(&output, 2 * room, sizeof *out);
    const uint8_t *old_lent = lend_bytes(), *new_lent = lend_second();
    ulm_comparison_answer u = ulm_compare_maps(old_lent, old_n, new_lent, new_n, out, room);
    SAME(refusal), SAME(old_elevations), SAME(new_elevations), SAME(differences);
    same_halfwords("list from 0, at", "list", wanted, out, 6 * p.differences);
    settle_output(&output, u.refusal, 12 * (uint64_t)u.differences);
    settle();
    return p.differences;
}

/* ---- What was reached ---- */

const uint8_t *compared_output(void)
{
    return output.expected;
}

uint64_t compared(void)
{
    return inputs;
}

void write_answers(void)
{
    for (size_t i = 0; i < ENTRIES; i++) {
        printf("%-14s accepted %-8" PRIu64, entries[i].name, answers[i][0]);
        for (unsigned k = 1; k <= LAST_REFUSAL; k++)
            if (answers[i][k] != 0)
                printf(" %u: %" PRIu64, k, answers[i][k]);
        printf("\n");
    }
}

unsigned not_reached(void)
{
    unsigned missing = 0;
    for (size_t i = 0; i < ENTRIES; i++)
        for (unsigned k = 0; k <= LAST_REFUSAL; k++)
            if ((k == 0 || (entries[i].refusals >> k & 1) != 0) && answers[i][k] == 0) {
                printf("%s never gave %u\n", entries[i].name, k);
                missing++;
            }
    return missing;
}
