/*
 * The plain implementation and libulm on the same tasks, and beside them an older libulm where one was given (BEFORE).
 *
 *     bench [ROUNDS]                for each task a call's bytes and the best time of each side, in nanoseconds a call
 *     bench day [COUNT]             the day's tasks on COUNT volumes of it (288), in turn: milliseconds in all
 *     bench count SIDE TASK [RUNS]  the task once or so often, for callgrind or perf; writes the number of calls
 *
 * Each round, and each volume of the day, goes through each task by all sides in turn, each time with another side
 * first, so that a change of the machine's speed meets all; the best of all rounds is kept. libulm has no part in
 * `memcpy`, the joined data of the set copied at once, in `longest_memcpy`, the body of the longest radial, and in
 * `day_read`, a file with the volume read into memory.
 */
#define _POSIX_C_SOURCE 200809L
#include <inttypes.h>
#include <stdio.h>
#include <stdlib.h>
#include <string.h>
#include <time.h>
#include <unistd.h>

#include "sweep.h"

enum { MOST_TASKS = 40, ROUNDS = 400, A_READ = 1 << 20 };

static const struct {
    const char *name;
    const struct batch *batches;
} sides[] = {
    { "plain", plain_batches },
    { "ulm", ulm_batches },
#ifdef BEFORE
    { "before", before_batches },
#endif
};

enum { SIDES = sizeof sides / sizeof *sides };

static uint64_t nanoseconds(void)
{
    struct timespec t;
    clock_gettime(CLOCK_MONOTONIC, &t);
    return (uint64_t)t.tv_sec * 1000000000 + (uint64_t)t.tv_nsec;
}

/* Short tasks are repeated, so that the cost of reading the clock doesn't count. */
static uint64_t time_of(const struct batch *b, uint64_t repeats)
{
    uint64_t start = nanoseconds();
    for (uint64_t i = 0; i < repeats; i++)
        b->run();
    return (nanoseconds() - start) / repeats;
}

static uint64_t repeats_of(const struct batch *b)
{
    uint64_t once = time_of(b, 3);
    return once > 50000 ? 1 : 50000 / (once + 1) + 1;
}

static void keep_best(uint64_t *best, uint64_t time)
{
    if (*best == 0 || time < *best)
        *best = time;
}

/* The set's data in one piece: as fast as joining can be. */
static uint64_t copy(void)
{
    memcpy(sweep.out, sweep.long_body, LONG_BODY);
    __asm__ volatile("" : : "r"(sweep.out) : "memory");
    return 0;
}

/* The same of the longest radial, between the places that it is joined, written and salvaged from and to. */
static uint64_t copy_longest(void)
{
    memcpy(sweep.salvaged, sweep.longest.bytes + 28, LONG_RADIAL);
    __asm__ volatile("" : : "r"(sweep.salvaged) : "memory");
    return 0;
}

static int stored; /* a file that holds the volume */

static void store_volume(void)
{
    size_t at = 0;
    ssize_t n = 1;
    if (stored == 0) {
        FILE *file = tmpfile();
        stored = file == NULL ? -1 : fileno(file);
    }
    for (; at < sweep.volume.size && n > 0; at += (size_t)n)
        n = pwrite(stored, sweep.volume.bytes + at, sweep.volume.size - at, (off_t)at);
    if (n <= 0 || ftruncate(stored, (off_t)at) != 0) {
        perror("the volume's file");
        exit(2);
    }
}

static uint64_t read_volume(void)
{
    static uint8_t to[LONG_VOLUME];
    size_t at = 0;
    for (ssize_t n = 1; n > 0; at += (size_t)n) {
        n = pread(stored, to + at, A_READ < sizeof to - at ? A_READ : sizeof to - at, (off_t)at);
        if (n < 0) {
            perror("the volume's file");
            exit(2);
        }
    }
    return at;
}

enum { ALONE = 3 };

static const struct batch alone[ALONE] = { { "memcpy", 1, copy, NULL },
                                           { "longest_memcpy", 1, copy_longest, NULL },
                                           { OF_THE_DAY "read", 1, read_volume, &sweep.volume.size } };

static int of_the_day(const struct batch *b)
{
    return strncmp(b->name, OF_THE_DAY, strlen(OF_THE_DAY)) == 0;
}

/* A run of task i by each side, whose answers are to be the same. */
static void check_same(size_t i)
{
    uint64_t plain = sides[0].batches[i].run();
    for (unsigned side = 1; side < SIDES; side++)
        if (sides[side].batches[i].run() != plain) {
            printf("%s: plain and %s give different answers\n", plain_batches[i].name, sides[side].name);
            exit(1);
        }
}

static void print_times(const struct batch *b, const uint64_t *times, unsigned sides_of_it, double unit)
{
    printf("%s %zu", b->name, b->bytes == NULL ? 0 : *b->bytes);
    for (unsigned side = 0; side < sides_of_it; side++)
        printf(" %.2f", (double)times[side] / (double)b->calls / unit);
    printf("\n");
}

static void time_all(unsigned rounds)
{
    uint64_t best[MOST_TASKS][SIDES] = { 0 }, repeats[MOST_TASKS], best_alone[ALONE] = { 0 };
    for (size_t i = 0; plain_batches[i].name != NULL; i++) {
        check_same(i);
        repeats[i] = repeats_of(&plain_batches[i]);
    }
    for (unsigned round = 0; round < rounds; round++) {
        for (size_t i = 0; plain_batches[i].name != NULL; i++)
            for (unsigned k = 0; k < SIDES; k++) {
                unsigned side = (round + k) % SIDES;
                keep_best(&best[i][side], time_of(&sides[side].batches[i], repeats[i]));
            }
        for (size_t i = 0; i < ALONE; i++)
            keep_best(&best_alone[i], time_of(&alone[i], repeats_of(&alone[i])));
    }
    for (size_t i = 0; plain_batches[i].name != NULL; i++)
        print_times(&plain_batches[i], best[i], SIDES, 1);
    for (size_t i = 0; i < ALONE; i++)
        print_times(&alone[i], &best_alone[i], 1, 1);
}

/* One volume of the day by all sides; its times are added to the sums. */
static void time_volume(unsigned number, uint64_t sums[MOST_TASKS][SIDES], uint64_t *reading)
{
    make_volume(&sweep.volume, number);
    store_volume();
    *reading += time_of(&alone[ALONE - 1], 1);
    for (size_t i = 0; plain_batches[i].name != NULL; i++)
        if (of_the_day(&plain_batches[i])) {
            check_same(i);
            for (unsigned k = 0; k < SIDES; k++) {
                unsigned side = (number + k) % SIDES;
                sums[i][side] += time_of(&sides[side].batches[i], 1);
            }
        }
}

static void time_day(unsigned volumes)
{
    static uint64_t sums[MOST_TASKS][SIDES];
    uint64_t reading = 0, bytes = 0;
    for (unsigned number = 0; number < volumes; number++) {
        time_volume(number, sums, &reading);
        bytes += sweep.volume.size;
    }
    printf("volumes %u bytes %" PRIu64 "\n", volumes, bytes);
    for (size_t i = 0; plain_batches[i].name != NULL; i++)
        if (of_the_day(&plain_batches[i]))
            print_times(&plain_batches[i], sums[i], SIDES, 1e6);
    print_times(&alone[ALONE - 1], &reading, 1, 1e6);
}

/* What the task works on is made, and nothing else, since callgrind is slow. */
static int count_one(const char *side, const char *task, unsigned long runs)
{
    for (unsigned k = 0; k < SIDES; k++)
        for (const struct batch *b = sides[k].batches; strcmp(side, sides[k].name) == 0 && b->name != NULL; b++)
            if (strcmp(b->name, task) == 0) {
                if (of_the_day(b))
                    make_volume(&sweep.volume, SAMPLE_VOLUME);
                else
                    make_sweep();
                for (unsigned long i = 0; i < runs; i++)
                    b->run();
                printf("%" PRIu64 "\n", b->calls);
                return 0;
            }
    fprintf(stderr, "no task %s of %s\n", task, side);
    return 2;
}

int main(int count, char **arguments)
{
    if (count > 3 && strcmp(arguments[1], "count") == 0)
        return count_one(arguments[2], arguments[3], count > 4 ? strtoul(arguments[4], NULL, 10) : 1);
    if (count > 1 && strcmp(arguments[1], "day") == 0) {
        time_day(count > 2 ? (unsigned)strtoul(arguments[2], NULL, 10) : VOLUMES);
        return 0;
    }
    make_sweep();
    make_volume(&sweep.volume, SAMPLE_VOLUME);
    store_volume();
    time_all(count > 1 ? (unsigned)strtoul(arguments[1], NULL, 10) : ROUNDS);
    return 0;
}
