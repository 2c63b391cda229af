#include "bytewise.h"

#include "make.h"

enum mark { SKIPPED, FIRST, LATER }; /* a byte that is skipped, a kept frame's first one, and any other of it */

/* The rules of a session frame, the kind being data. */
static int frame_stands(const uint8_t *frame, size_t left)
{
    return left >= 12 && get(frame, 4) == 2 && get(frame + 8, 4) <= 1048576 && get(frame + 8, 4) <= left - 12;
}

static int time_passes(const uint8_t *message)
{
    return get(message + 6, 2) >= 1 && get(message + 8, 4) <= 86399999;
}

/* The rules of a radial's header with the size 65,535: the four bytes of the segment fields are its length. */
static int long_header_passes(const uint8_t *message, size_t n)
{
    uint64_t length = get(message + 12, 4);
    return message[3] == 31 && length >= 131070 && length <= 1048576 && length % 2 == 0 && n == length
           && time_passes(message);
}

/* The rules of a message header. */
static int header_passes(const uint8_t *message, size_t n)
{
    static const uint8_t permitted[] = { 1, 2, 3, 4, 5, 6, 7, 8, 9, 10, 11, 12, 13, 15, 18, 31 };
    uint64_t size, segments, number, found = 0;
    if (n < 16)
        return 0;
    size = get(message, 2);
    if (size == 65535)
        return long_header_passes(message, n);
    segments = get(message + 12, 2);
    number = get(message + 14, 2);
    for (size_t i = 0; i < sizeof permitted; i++)
        found |= message[3] == permitted[i];
    return size >= 8 && n == 2 * size && found && segments >= 1 && segments <= 128
           && (segments == 1 || (number >= 1 && number <= segments)) && (message[3] != 31 || segments == 1)
           && (message[3] == 31 || size <= 1208) && time_passes(message);
}

static void mark_all(const uint8_t *buf, size_t n, uint8_t *marks)
{
    size_t left_of_frame = 0;
    for (size_t i = 0; i < n; i++) {
        if (left_of_frame > 0) {
            marks[i] = LATER;
            left_of_frame--;
        } else if (frame_stands(buf + i, n - i) && header_passes(buf + i + 12, get(buf + i + 8, 4))) {
            marks[i] = FIRST;
            left_of_frame = 12 + get(buf + i + 8, 4) - 1;
        } else {
            marks[i] = SKIPPED;
        }
    }
}

struct bytewise salvage_bytewise(const uint8_t *buf, size_t n, uint8_t *out, uint64_t *list)
{
    static uint8_t marks[BYTEWISE_MOST];
    struct bytewise r = { 0, 0, 0 };
    mark_all(buf, n, marks);
    for (size_t i = 0; i < n; i++) {
        r.kept += marks[i] == FIRST;
        if (marks[i] != SKIPPED) {
            out[r.length++] = buf[i];
            continue;
        }
        if (i == 0 || marks[i - 1] != SKIPPED) {
            list[2 * r.runs] = i;
            list[2 * r.runs + 1] = 0;
            r.runs++;
        }
        list[2 * r.runs - 1]++;
    }
    return r;
}
