/* The tasks, compiled once for each SIDE: plain or ulm. The loops are the same, only the calls differ. */
#include "make.h"
#include "plain.h"
#include "sweep.h"
#include "ulm.h"

#define JOIN(a, b) a##_##b
#define JOINED(a, b) JOIN(a, b)
#define ASK(entry) JOINED(SIDE, entry)
#define ANSWER(entry) JOINED(SIDE, JOIN(entry, answer))

/* Whole functions, so that callgrind can count within each by its name. */
#ifdef __clang__
#define WHOLE __attribute__((noinline))
#else
#define WHOLE __attribute__((noipa))
#endif
#define TASK(name) static WHOLE uint64_t JOINED(SIDE, task_##name)(void)

static const uint8_t *message(size_t i)
{
    return sweep.recording + i * FRAME + 12;
}

static const uint8_t *body(size_t i)
{
    return sweep.recording + i * FRAME + 28;
}

TASK(frame_walk)
{
    uint64_t sum = 0;
    for (ANSWER(frame) f = ASK(frame)(sweep.recording, sizeof sweep.recording, 0); f.found;
         f = ASK(frame)(sweep.recording, sizeof sweep.recording, f.next))
        sum += f.start;
    return sum;
}

TASK(header)
{
    uint64_t sum = 0;
    for (size_t i = 0; i < RADIALS; i++)
        sum += ASK(header)(message(i), FRAME - 12).sequence;
    return sum;
}

TASK(radial)
{
    uint64_t sum = 0;
    for (size_t i = 0; i < RADIALS; i++)
        sum += ASK(radial)(body(i), BODY).blocks;
    return sum;
}

TASK(gates)
{
    uint64_t sum = 0;
    for (size_t i = 0; i < RADIALS; i++)
        for (size_t k = 0; k < 6; k++)
            sum += ASK(gates)(body(i), BODY, make_names[k]).start;
    return sum;
}

enum { ASKED_GATES = 16 };

TASK(gate)
{
    float sum = 0;
    for (size_t i = 0; i < RADIALS; i++)
        for (size_t k = 0; k < ASKED_GATES; k++)
            sum += ASK(gate)(body(i), BODY, make_names[k % 6], 70 * k).value;
    return (uint64_t)(int64_t)sum;
}

/* Every gate of REF, walked where the gates lie. */
TASK(value)
{
    float sum = 0;
    for (size_t i = 0; i < RADIALS; i++) {
        const uint8_t *gates = body(i) + 68 + 44 + 12 + 28 + 28;
        for (size_t k = 0; k < 1832; k++)
            sum += ASK(value)(gates[k], 0x40000000, 0x42840000).value;
    }
    return (uint64_t)(int64_t)sum;
}

TASK(set)
{
    return ASK(set)(sweep.set, sizeof sweep.set, sweep.out, sizeof sweep.out).length + sweep.out[LONG_BODY - 1];
}

TASK(write)
{
    return ASK(write)(8, 2, 7, 16000, 43200000, sweep.long_body, LONG_BODY, sweep.out, sizeof sweep.out).length
           + sweep.out[LONG_BODY - 1];
}

TASK(write_radial)
{
    uint64_t sum = 0;
    for (size_t i = 0; i < RADIALS; i++)
        sum += ASK(write)(8, 31, (uint16_t)i, 16000, 43200000, body(i), BODY, sweep.out, sizeof sweep.out).length;
    return sum;
}

TASK(map)
{
    return ASK(map)(sweep.map.bytes, sweep.map.size).elevations;
}

TASK(largest_map)
{
    return ASK(map)(sweep.largest.bytes, sweep.largest.size).elevations;
}

enum { QUERIES = 5 };

static inline uint64_t query(const struct map *m)
{
    uint64_t sum = 0;
    for (uint64_t i = 0; i < QUERIES; i++)
        sum += ASK(map_code)(m->bytes, m->size, 1 + i, 70 * i, 100 * i).code;
    return sum;
}

TASK(map_code)
{
    return query(&sweep.map);
}

TASK(largest_map_code)
{
    return query(&sweep.largest);
}

/* The differences, and the last kilometre of the first one. */
static inline uint64_t compare_with(const struct map *m, size_t room)
{
    ANSWER(comparison) r = ASK(compare_maps)(sweep.map.bytes, sweep.map.size, m->bytes, m->size, sweep.list, room);
    return r.differences + sweep.list[3];
}

TASK(compare_near)
{
    return compare_with(&sweep.near, MOST_HALFWORDS);
}

TASK(compare_apart)
{
    return compare_with(&sweep.apart, MOST_HALFWORDS);
}

TASK(compare_near_less)
{
    return compare_with(&sweep.near, MOST_HALFWORDS - 1);
}

TASK(compare_apart_less)
{
    return compare_with(&sweep.apart, MOST_HALFWORDS - 1);
}

/* The counts, the last byte that was written, and the first run. */
static inline uint64_t salvage(const struct recording *r, size_t room, size_t numbers)
{
    ANSWER(salvage) a = ASK(salvage)(r->bytes, r->size, sweep.salvaged, room, sweep.runs, numbers);
    return a.refusal + a.kept + a.length + a.runs + (a.length == 0 ? 0 : sweep.salvaged[a.length - 1])
           + (a.runs == 0 ? 0 : sweep.runs[0] + sweep.runs[1]);
}

TASK(salvage_clean)
{
    return salvage(&sweep.clean, LONG_RECORDING, MOST_NUMBERS);
}

TASK(salvage_damaged)
{
    return salvage(&sweep.damaged, LONG_RECORDING, MOST_NUMBERS);
}

TASK(salvage_random)
{
    return salvage(&sweep.random, LONG_RECORDING, MOST_NUMBERS);
}

TASK(salvage_clean_less)
{
    return salvage(&sweep.clean, sweep.clean.length, sweep.clean.numbers);
}

TASK(salvage_damaged_less)
{
    return salvage(&sweep.damaged, sweep.damaged.length, sweep.damaged.numbers);
}

TASK(salvage_random_less)
{
    return salvage(&sweep.random, sweep.random.length, sweep.random.numbers);
}

/* The longest radial, from one place to another by each of three entries. */
TASK(longest_set)
{
    return ASK(set)(sweep.longest.bytes, sweep.longest.size, sweep.salvaged, LONG_RECORDING).length
           + sweep.salvaged[LONG_RADIAL - 1];
}

TASK(longest_write)
{
    const uint8_t *body = sweep.longest.bytes + 28;
    return ASK(write)(8, 31, 7, 16000, 43200000, body, LONG_RADIAL, sweep.salvaged, LONG_RECORDING).length
           + sweep.salvaged[28 + LONG_RADIAL - 1];
}

TASK(longest_salvage)
{
    return salvage(&sweep.longest, LONG_RECORDING, MOST_NUMBERS);
}

TASK(day_walk)
{
    const struct volume *v = &sweep.volume;
    uint64_t sum = 0;
    for (ANSWER(frame) f = ASK(frame)(v->bytes, v->size, 0); f.found; f = ASK(frame)(v->bytes, v->size, f.next))
        sum += f.start;
    return sum;
}

TASK(day_header)
{
    const struct volume *v = &sweep.volume;
    uint64_t sum = 0;
    for (size_t i = 0; i < v->messages; i++)
        sum += ASK(header)(v->bytes + v->message[i].at, v->message[i].size).sequence;
    return sum;
}

TASK(day_radial)
{
    const struct volume *v = &sweep.volume;
    uint64_t sum = 0;
    for (size_t i = 0; i < v->radials; i++)
        sum += ASK(radial)(v->bytes + v->radial[i].at, v->radial[i].size).blocks;
    return sum;
}

/* The gates' codes, where they lie, as a renderer goes through them. */
static inline uint64_t sum_codes(const uint8_t *gates, uint64_t count, uint32_t word)
{
    uint64_t sum = 0;
    if (word == 8)
        for (uint64_t i = 0; i < count; i++)
            sum += gates[i];
    else
        for (uint64_t i = 0; i < count; i++)
            sum += (uint64_t)gates[2 * i] << 8 | gates[2 * i + 1];
    return sum;
}

/* Each of the six moments is asked for; a radial that hasn't one of them is refused as 21 and adds nothing. */
static inline uint64_t sum_gates(const uint8_t *body, size_t size)
{
    uint64_t sum = 0;
    for (size_t k = 0; k < 6; k++) {
        ANSWER(gates) g = ASK(gates)(body, size, make_names[k]);
        sum += sum_codes(body + g.start, g.gates, g.word);
    }
    return sum;
}

TASK(day_gates)
{
    const struct volume *v = &sweep.volume;
    uint64_t sum = 0;
    for (size_t i = 0; i < v->radials; i++)
        sum += sum_gates(v->bytes + v->radial[i].at, v->radial[i].size);
    return sum;
}

/* What a loader does with a message: a radial is checked and its gates are summed. The segments of any other message
 * follow each other: after the last one the set is joined, and a map is checked. */
static inline uint64_t load_message(const uint8_t *message, size_t size, const uint8_t **first)
{
    ANSWER(header) h = ASK(header)(message, size);
    if (h.type == 31)
        return h.ms + ASK(radial)(message + 16, size - 16).azimuth_number + sum_gates(message + 16, size - 16);
    if (h.number == 1)
        *first = message - 12;
    if (h.number != h.segments)
        return h.ms;
    ANSWER(set) s = ASK(set)(*first, (size_t)(message + size - *first), sweep.out, sizeof sweep.out);
    return s.length + (s.type == 15 ? ASK(map)(sweep.out, s.length).elevations : sweep.out[s.length - 1]);
}

/* The whole of loading: frames, headers, radials and their gates, other messages. */
TASK(day_load)
{
    const struct volume *v = &sweep.volume;
    const uint8_t *first = v->bytes;
    uint64_t sum = 0;
    for (ANSWER(frame) f = ASK(frame)(v->bytes, v->size, 0); f.found; f = ASK(frame)(v->bytes, v->size, f.next))
        if (f.kind == 2)
            sum += load_message(v->bytes + f.start, f.size, &first);
    return sum;
}

const struct batch JOINED(SIDE, batches)[] = {
    { "frame_walk", RADIALS + 1, JOINED(SIDE, task_frame_walk), NULL },
    { "header", RADIALS, JOINED(SIDE, task_header), NULL },
    { "radial", RADIALS, JOINED(SIDE, task_radial), NULL },
    { "gates", RADIALS * 6, JOINED(SIDE, task_gates), NULL },
    { "gate", RADIALS * ASKED_GATES, JOINED(SIDE, task_gate), NULL },
    { "value", RADIALS * 1832, JOINED(SIDE, task_value), NULL },
    { "set", 1, JOINED(SIDE, task_set), NULL },
    { "write", 1, JOINED(SIDE, task_write), NULL },
    { "write_radial", RADIALS, JOINED(SIDE, task_write_radial), NULL },
    { "map", 1, JOINED(SIDE, task_map), NULL },
    { "map_code", QUERIES, JOINED(SIDE, task_map_code), NULL },
    { "largest_map", 1, JOINED(SIDE, task_largest_map), NULL },
    { "largest_map_code", QUERIES, JOINED(SIDE, task_largest_map_code), NULL },
    { "compare_near", 1, JOINED(SIDE, task_compare_near), NULL },
    { "compare_apart", 1, JOINED(SIDE, task_compare_apart), NULL },
    { "compare_near_less", 1, JOINED(SIDE, task_compare_near_less), NULL },
    { "compare_apart_less", 1, JOINED(SIDE, task_compare_apart_less), NULL },
    { "salvage_clean", 1, JOINED(SIDE, task_salvage_clean), &sweep.clean.size },
    { "salvage_damaged", 1, JOINED(SIDE, task_salvage_damaged), &sweep.damaged.size },
    { "salvage_random", 1, JOINED(SIDE, task_salvage_random), &sweep.random.size },
    { "salvage_clean_less", 1, JOINED(SIDE, task_salvage_clean_less), &sweep.clean.size },
    { "salvage_damaged_less", 1, JOINED(SIDE, task_salvage_damaged_less), &sweep.damaged.size },
    { "salvage_random_less", 1, JOINED(SIDE, task_salvage_random_less), &sweep.random.size },
    { "longest_set", 1, JOINED(SIDE, task_longest_set), &sweep.longest.size },
    { "longest_write", 1, JOINED(SIDE, task_longest_write), &sweep.longest.size },
    { "longest_salvage", 1, JOINED(SIDE, task_longest_salvage), &sweep.longest.size },
    { OF_THE_DAY "walk", 1, JOINED(SIDE, task_day_walk), &sweep.volume.size },
    { OF_THE_DAY "header", 1, JOINED(SIDE, task_day_header), &sweep.volume.size },
    { OF_THE_DAY "radial", 1, JOINED(SIDE, task_day_radial), &sweep.volume.size },
    { OF_THE_DAY "gates", 1, JOINED(SIDE, task_day_gates), &sweep.volume.size },
    { OF_THE_DAY "load", 1, JOINED(SIDE, task_day_load), &sweep.volume.size },
    { NULL, 0, NULL, NULL },
};
