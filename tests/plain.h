/*
 * The rules (docs/RULES.md) in plain C, written apart from the library: the other side of the differential test, and the
 * yardstick of the benchmark. Answers have the members that the rules name; `refusal` is 0 or the number of the refusal,
 * and a refused answer is 0 otherwise (but `next` of a frame, which is the place that was given).
 */
#ifndef PLAIN_H
#define PLAIN_H

#include <stddef.h>
#include <stdint.h>

typedef struct {
    uint32_t refusal, found, kind, second;
    uint64_t start, size, next;
} plain_frame_answer;

typedef struct {
    uint32_t refusal, size, channel, type, sequence, date, ms, segments, number;
} plain_header_answer;

typedef struct {
    uint32_t refusal, size, channel, type, sequence, date, ms, segments, number;
    uint64_t length;
} plain_set_answer;

typedef struct {
    uint32_t refusal;
    uint64_t kept, length, runs;
} plain_salvage_answer;

typedef struct {
    uint32_t refusal;
    uint64_t length;
} plain_written_answer;

typedef struct {
    uint32_t refusal, station, time, date, azimuth_number, azimuth, radial_length, spacing, status, elevation_number,
        sector, elevation, blanking, indexing, blocks;
} plain_radial_answer;

typedef struct {
    uint32_t refusal, found, name, reserved, gates, first, interval, overlay, noise, flags, word, scale, offset;
    uint64_t start, size;
} plain_block_answer;

typedef struct {
    uint32_t refusal, gates, word, scale, offset, first, interval;
    uint64_t start, size;
} plain_gates_answer;

typedef struct {
    uint32_t refusal, kind;
    float value;
} plain_gate_answer;

typedef struct {
    uint32_t refusal, code;
} plain_request_answer;

typedef struct {
    uint32_t refusal, count;
    uint16_t regions[150];
} plain_censor_answer;

typedef struct {
    uint32_t refusal, date, minutes, elevations;
} plain_map_answer;

typedef struct {
    uint32_t refusal, code;
} plain_map_code_answer;

typedef struct {
    uint32_t refusal, old_elevations, new_elevations, differences;
} plain_comparison_answer;

plain_frame_answer plain_frame(const uint8_t *buf, size_t len, size_t place);
plain_header_answer plain_header(const uint8_t *msg, size_t len);
plain_set_answer plain_set(const uint8_t *buf, size_t len, uint8_t *out, size_t out_len);
plain_salvage_answer plain_salvage(const uint8_t *buf, size_t len, uint8_t *out, size_t out_len, uint64_t *runs,
                                   size_t n);
plain_written_answer plain_write(uint8_t channel, uint8_t type, uint16_t sequence, uint16_t date, uint32_t ms,
                                 const uint8_t *body, size_t len, uint8_t *out, size_t out_len);
plain_radial_answer plain_radial(const uint8_t *body, size_t len);
plain_block_answer plain_block(const uint8_t *body, size_t len, uint32_t block);
plain_gates_answer plain_gates(const uint8_t *body, size_t len, uint32_t name);
plain_gate_answer plain_gate(const uint8_t *body, size_t len, uint32_t name, uint64_t gate);
plain_gate_answer plain_value(uint16_t code, uint32_t scale, uint32_t offset);
plain_request_answer plain_request(const uint8_t *body, size_t len);
plain_written_answer plain_write_request(const uint16_t *list, size_t n, uint8_t *out, size_t out_len);
plain_censor_answer plain_censor(const uint8_t *body, size_t len);
plain_written_answer plain_write_censor(const uint16_t *list, size_t n, uint8_t *out, size_t out_len);
plain_map_answer plain_map(const uint8_t *body, size_t len);
plain_map_code_answer plain_map_code(const uint8_t *body, size_t len, uint64_t elevation, uint64_t azimuth,
                                     uint64_t kilometre);
plain_comparison_answer plain_compare_maps(const uint8_t *old_map, size_t old_len, const uint8_t *new_map,
                                           size_t new_len, uint16_t *out, size_t n);

#endif
