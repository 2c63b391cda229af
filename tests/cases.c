/*
 * Asks one side, the plain implementation or libulm (SIDE chooses it at compile time), the cases of a file, one line
 * each: NAME ENTRY ARG... = ANSWER... The last argument says what must hold of all lines:
 *
 *     cases FILE same        every answer is the line's
 *     cases FILE differs     no answer is the line's
 *
 * Writes each line of which it does not hold, then how many are the same and how many differ.
 */
#define _POSIX_C_SOURCE 200809L
#include <inttypes.h>
#include <stdarg.h>
#include <stdio.h>
#include <stdlib.h>
#include <string.h>
#include <sys/types.h>

#include "plain.h"
#include "ulm.h"

#ifndef SIDE
#define SIDE plain
#endif
#define JOIN(a, b) a##_##b
#define JOINED(a, b) JOIN(a, b)
#define ASK(entry) JOINED(SIDE, entry)

/* No more room is lent than the longest frame needs. A line has at most as many letters as a text. */
enum { MOST_WORDS = 9, MOST_ROOM = 1048588, MOST_RUNS = 1 << 16, MOST_TEXT = 4718592 };

/* The answer's text. */
static char text[MOST_TEXT];
static size_t text_length;

static void add(const char *format, ...)
{
    va_list rest;
    va_start(rest, format);
    text_length += (size_t)vsnprintf(text + text_length, sizeof text - text_length, format, rest);
    va_end(rest);
}

static void add_bytes(const uint8_t *p, size_t n)
{
    static const char digits[] = "0123456789abcdef";
    text[text_length++] = 'x';
    for (size_t i = 0; i < n; i++) {
        text[text_length++] = digits[p[i] >> 4];
        text[text_length++] = digits[p[i] & 15];
    }
    text[text_length] = 0;
}

static void add_halfwords(const uint16_t *p, size_t n)
{
    add("x");
    for (size_t i = 0; i < n; i++)
        add("%04x", p[i]);
}

/* A question's words after the entry: numbers, and bytes. */
static char *words[MOST_WORDS];
static size_t word_count;

static uint64_t number(size_t i)
{
    return strtoull(words[i], NULL, 10);
}

static unsigned digit(char c)
{
    return (unsigned)(c <= '9' ? c - '0' : c - 'a' + 10);
}

struct bytes {
    uint8_t *at;
    size_t n;
};

static struct bytes bytes(size_t i)
{
    const char *hex = words[i] + 1;
    struct bytes b = { NULL, strlen(hex) / 2 };
    b.at = malloc(b.n + 1);
    for (size_t k = 0; k < b.n; k++)
        b.at[k] = (uint8_t)(digit(hex[2 * k]) << 4 | digit(hex[2 * k + 1]));
    return b;
}

static uint32_t name(size_t i)
{
    return (uint32_t)strtoul(words[i] + 1, NULL, 16);
}

/* A list of halfwords. */
struct list {
    uint16_t *at;
    size_t n;
};

static struct list list(size_t i)
{
    struct bytes b = bytes(i);
    struct list l = { malloc(b.n + 2), b.n / 2 };
    for (size_t k = 0; k < l.n; k++)
        l.at[k] = (uint16_t)(b.at[2 * k] << 8 | b.at[2 * k + 1]);
    free(b.at);
    return l;
}

/* Lent output: exactly the room asked for, filled with a pattern. */
static uint8_t *output;
static size_t room;

/* A lent list of runs, for a salvage only. */
static uint64_t *runs;
static size_t runs_room;

static uint8_t pattern(size_t i)
{
    return (uint8_t)(i * 37 + 11);
}

static uint8_t *in_pattern(size_t n)
{
    uint8_t *p = malloc(n + 1);
    for (size_t i = 0; i < n; i++)
        p[i] = pattern(i);
    return p;
}

static void lend(uint64_t wanted)
{
    room = wanted < MOST_ROOM ? (size_t)wanted : MOST_ROOM;
    output = in_pattern(room);
}

/* Room for that many runs, two numbers each. */
static void lend_runs(uint64_t wanted)
{
    runs_room = 2 * sizeof *runs * (wanted < MOST_RUNS ? (size_t)wanted : MOST_RUNS);
    runs = (uint64_t *)(void *)in_pattern(runs_room);
}

static int in_pattern_from(const void *bytes, size_t from, size_t n)
{
    const uint8_t *p = bytes;
    for (; from < n; from++)
        if (p[from] != pattern(from))
            return 0;
    return 1;
}

/* Adds "touched" if more was written than the lengths say (on a refusal: anything), else the refusal, if there is one.
 * Returns whether neither was added. */
static int both_accepted(uint32_t refusal, uint64_t length, uint64_t runs_length)
{
    int touched = !in_pattern_from(output, refusal == 0 ? length : 0, room)
                  || !in_pattern_from(runs, refusal == 0 ? runs_length : 0, runs_room);
    if (touched)
        add("touched");
    else if (refusal != 0)
        add("no %" PRIu32, refusal);
    return !touched && refusal == 0;
}

static int accepted(uint32_t refusal, uint64_t length)
{
    return both_accepted(refusal, length, 0);
}

static void ask_frame(void)
{
    struct bytes b = bytes(1);
    JOINED(SIDE, frame_answer) r = ASK(frame)(b.at, b.n, number(0));
    if (accepted(r.refusal, 0)) {
        if (r.found)
            add("frame %" PRIu32 " %" PRIu32 " %" PRIu64 " %" PRIu64 " %" PRIu64, r.kind, r.second, r.start, r.size,
                r.next);
        else
            add("end");
    }
    free(b.at);
}

#define HEADER_VALUES(r) r.size, r.channel, r.type, r.sequence, r.date, r.ms, r.segments, r.number
#define EIGHT_NUMBERS " %u %u %u %u %u %u %u %u"

static void ask_header(void)
{
    struct bytes b = bytes(0);
    JOINED(SIDE, header_answer) r = ASK(header)(b.at, b.n);
    if (accepted(r.refusal, 0))
        add("header" EIGHT_NUMBERS, HEADER_VALUES(r));
    free(b.at);
}

static void ask_set(void)
{
    struct bytes b = bytes(1);
    lend(number(0));
    JOINED(SIDE, set_answer) r = ASK(set)(b.at, b.n, output, room);
    if (accepted(r.refusal, r.length)) {
        add("set" EIGHT_NUMBERS " ", HEADER_VALUES(r));
        add_bytes(output, r.length);
    }
    free(b.at);
}

static void ask_salvage(void)
{
    struct bytes b = bytes(2);
    lend(number(0));
    lend_runs(number(1));
    JOINED(SIDE, salvage_answer) r = ASK(salvage)(b.at, b.n, output, room, runs, runs_room / sizeof *runs);
    if (both_accepted(r.refusal, r.length, 2 * sizeof *runs * r.runs)) {
        add("salvaged %" PRIu64 " %" PRIu64 " ", r.kept, r.runs);
        add_bytes(output, r.length);
        for (size_t i = 0; i < 2 * r.runs; i++)
            add(" %" PRIu64, runs[i]);
    }
    free(b.at);
}

static void say_written(JOINED(SIDE, written_answer) r)
{
    if (accepted(r.refusal, r.length)) {
        add("wrote ");
        add_bytes(output, r.length);
    }
}

static void ask_write(void)
{
    struct bytes b = bytes(6);
    lend(number(5));
    say_written(ASK(write)((uint8_t)number(0), (uint8_t)number(1), (uint16_t)number(2), (uint16_t)number(3),
                           (uint32_t)number(4), b.at, b.n, output, room));
    free(b.at);
}

static void say_block(const uint8_t *body, size_t n, uint32_t block)
{
    JOINED(SIDE, block_answer) k = ASK(block)(body, n, block);
    add(" | %" PRIu64 " %" PRIu64 " x%08x", k.start, k.size, k.name);
    if (block > 3)
        add(" x%08x %u %u %u %u %u %u %u x%08x x%08x", k.reserved, k.gates, k.first, k.interval, k.overlay, k.noise,
            k.flags, k.word, k.scale, k.offset);
}

static void ask_radial(void)
{
    struct bytes b = bytes(0);
    JOINED(SIDE, radial_answer) r = ASK(radial)(b.at, b.n);
    if (accepted(r.refusal, 0)) {
        add("radial x%08x %u %u %u x%08x %u %u %u %u %u x%08x %u %u %u", r.station, r.time, r.date, r.azimuth_number,
            r.azimuth, r.radial_length, r.spacing, r.status, r.elevation_number, r.sector, r.elevation, r.blanking,
            r.indexing, r.blocks);
        for (uint32_t block = 1; block <= r.blocks; block++)
            say_block(b.at, b.n, block);
    }
    free(b.at);
}

static void ask_gates(void)
{
    struct bytes b = bytes(1);
    JOINED(SIDE, gates_answer) r = ASK(gates)(b.at, b.n, name(0));
    if (accepted(r.refusal, 0)) {
        add("gates ");
        add_bytes(b.at + r.start, r.size);
    }
    free(b.at);
}

static void ask_gate(void)
{
    struct bytes b = bytes(2);
    JOINED(SIDE, gate_answer) r = ASK(gate)(b.at, b.n, name(0), number(1));
    if (accepted(r.refusal, 0)) {
        uint32_t bits;
        memcpy(&bits, &r.value, sizeof bits);
        if (r.kind == 0)
            add("value x%08x", bits);
        else
            add(r.kind == 1 ? "below" : "folded");
    }
    free(b.at);
}

static void ask_request(void)
{
    struct bytes b = bytes(0);
    JOINED(SIDE, request_answer) r = ASK(request)(b.at, b.n);
    if (accepted(r.refusal, 0))
        add("request %u", r.code);
    free(b.at);
}

static void ask_write_request(void)
{
    struct list l = list(1);
    lend(number(0));
    say_written(ASK(write_request)(l.at, l.n, output, room));
    free(l.at);
}

static void ask_censor(void)
{
    struct bytes b = bytes(0);
    JOINED(SIDE, censor_answer) r = ASK(censor)(b.at, b.n);
    if (accepted(r.refusal, 0)) {
        add("censor %u ", r.count);
        add_halfwords(r.regions, 150);
    }
    free(b.at);
}

static void ask_write_censor(void)
{
    struct list l = list(1);
    lend(number(0));
    say_written(ASK(write_censor)(l.at, l.n, output, room));
    free(l.at);
}

static void ask_map(void)
{
    struct bytes b = bytes(0);
    JOINED(SIDE, map_answer) r = ASK(map)(b.at, b.n);
    if (accepted(r.refusal, 0))
        add("map %u %u %u", r.date, r.minutes, r.elevations);
    free(b.at);
}

static void ask_map_code(void)
{
    struct bytes b = bytes(3);
    JOINED(SIDE, map_code_answer) r = ASK(map_code)(b.at, b.n, number(0), number(1), number(2));
    if (accepted(r.refusal, 0))
        add("code %u", r.code);
    free(b.at);
}

/* The room is counted in halfwords. */
static void ask_compare(void)
{
    struct bytes old_map = bytes(1), new_map = bytes(2);
    lend(number(0) < MOST_ROOM / 2 ? 2 * number(0) : MOST_ROOM);
    uint16_t *list = (uint16_t *)(void *)output;
    JOINED(SIDE, comparison_answer) r = ASK(compare_maps)(old_map.at, old_map.n, new_map.at, new_map.n, list, room / 2);
    if (accepted(r.refusal, 12 * (uint64_t)r.differences)) {
        add("compare %u %u %u ", r.old_elevations, r.new_elevations, r.differences);
        add_halfwords(list, 6 * (size_t)r.differences);
    }
    free(old_map.at);
    free(new_map.at);
}

static const struct {
    const char *entry;
    size_t words;
    void (*ask)(void);
} entries[] = {
    { "frame", 2, ask_frame },
    { "header", 1, ask_header },
    { "set", 2, ask_set },
    { "salvage", 3, ask_salvage },
    { "write", 7, ask_write },
    { "radial", 1, ask_radial },
    { "gates", 2, ask_gates },
    { "gate", 3, ask_gate },
    { "request", 1, ask_request },
    { "write-request", 2, ask_write_request },
    { "censor", 1, ask_censor },
    { "write-censor", 2, ask_write_censor },
    { "map", 1, ask_map },
    { "map-code", 4, ask_map_code },
    { "compare", 3, ask_compare },
};

static void ask(const char *entry)
{
    text_length = 0;
    output = NULL;
    runs = NULL;
    room = runs_room = 0;
    for (size_t i = 0; i < sizeof entries / sizeof *entries; i++)
        if (strcmp(entries[i].entry, entry) == 0 && entries[i].words == word_count) {
            entries[i].ask();
            free(output);
            free(runs);
            return;
        }
    add("malformed");
}

/* Takes a line apart at its spaces and asks it; whether the answer is the line's. */
static int line_is_same(char *line)
{
    char *answer = strstr(line, " = ");
    if (answer == NULL)
        return 0;
    *answer = 0;
    answer += 3;
    strtok(line, " ");
    char *entry = strtok(NULL, " ");
    word_count = 0;
    for (char *word; word_count < MOST_WORDS && (word = strtok(NULL, " ")) != NULL;)
        words[word_count++] = word;
    ask(entry == NULL ? "" : entry);
    return strcmp(text, answer) == 0;
}

int main(int count, char **arguments)
{
    FILE *file = count == 3 ? fopen(arguments[1], "r") : NULL;
    if (file == NULL) {
        fprintf(stderr, "usage: cases FILE same|differs\n");
        return 2;
    }
    int wanted = strcmp(arguments[2], "same") == 0;
    size_t tally[2] = { 0, 0 }, room_of_line = 0;
    char *line = NULL;
    for (ssize_t n; (n = getline(&line, &room_of_line, file)) > 0;) {
        line[n - (line[n - 1] == '\n')] = 0;
        int same = line_is_same(line);
        tally[same]++;
        if (same != wanted)
            printf("%s %s: %.200s\n", line, same ? "same" : "differs", text);
    }
    free(line);
    fclose(file);
    printf("%s: %zu same, %zu differ\n", arguments[1], tally[1], tally[0]);
    return tally[!wanted] != 0 || tally[wanted] == 0;
}
