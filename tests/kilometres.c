#include "kilometres.h"

#include <string.h>

#include "make.h"

enum { KILOMETRES = 512 };

/* The codes of an azimuth, one for each kilometre; the next azimuth. */
static const uint8_t *read_codes(const uint8_t *azimuth, uint8_t *codes)
{
    size_t zones = get(azimuth, 2), done = 0;
    for (size_t k = 0; k < zones; k++) {
        const uint8_t *zone = azimuth + 2 + 4 * k;
        size_t next = get(zone + 2, 2) + 1;
        memset(codes + done, zone[1], next - done);
        done = next;
    }
    return azimuth + 2 + 4 * zones;
}

/* A kilometre whose codes differ belongs to the last difference or begins one. */
static size_t list_azimuth(const uint8_t *old_codes, const uint8_t *new_codes, uint16_t elevation, uint16_t azimuth,
                           uint16_t *list)
{
    size_t n = 0;
    for (uint16_t i = 0; i < KILOMETRES; i++) {
        if (old_codes[i] == new_codes[i])
            continue;
        if (i == 0 || old_codes[i] != old_codes[i - 1] || new_codes[i] != new_codes[i - 1]) {
            const uint16_t begun[6] = { elevation, azimuth, i, i, old_codes[i], new_codes[i] };
            memcpy(list + n, begun, sizeof begun);
            n += 6;
        }
        list[n - 3] = i;
    }
    return n;
}

size_t list_by_kilometres(const uint8_t *old_map, const uint8_t *new_map, uint16_t *list)
{
    uint64_t old_elevations = get(old_map + 4, 2), new_elevations = get(new_map + 4, 2);
    uint64_t both = old_elevations < new_elevations ? old_elevations : new_elevations;
    const uint8_t *p = old_map + 6, *q = new_map + 6;
    size_t n = 0;
    for (uint16_t i = 0; i < 360 * both; i++) {
        uint8_t old_codes[KILOMETRES], new_codes[KILOMETRES];
        p = read_codes(p, old_codes);
        q = read_codes(q, new_codes);
        n += list_azimuth(old_codes, new_codes, 1 + i / 360, i % 360, list + n);
    }
    return n;
}
