/*
 * One question to both sides: the library on lent memory, the plain implementation on a copy. If the answers
 * differ, or lent memory changed where it may not, the question is written in full and the run ends.
 */
#ifndef COMPARE_H
#define COMPARE_H

#include <stddef.h>
#include <stdint.h>

enum { MOST_BYTES = 9 << 18 }; /* of an input, and of an output: two of the longest frames, and some more */

/* The seed decides how each slice is lent; for valgrind each is a heap block. */
void compare_open(uint64_t seed, int on_heap);

void compare_frame(const uint8_t *buf, size_t n, uint64_t place);
void compare_header(const uint8_t *msg, size_t n);
void compare_set(const uint8_t *buf, size_t n, size_t room);
/* The list of runs has room for that many numbers. */
void compare_salvage(const uint8_t *buf, size_t n, size_t room, size_t numbers);
/* Gives the length written. */
size_t compare_write(uint8_t channel, uint8_t type, uint16_t sequence, uint16_t date, uint32_t ms, const uint8_t *body,
                     size_t n, size_t room);
void compare_radial(const uint8_t *body, size_t n);
void compare_block(const uint8_t *body, size_t n, uint32_t block);
void compare_gates(const uint8_t *body, size_t n, uint32_t name);
void compare_gate(const uint8_t *body, size_t n, uint32_t name, uint64_t gate);
void compare_value(uint16_t code, uint32_t scale, uint32_t offset);
void compare_request(const uint8_t *body, size_t n);
void compare_write_request(const uint16_t *list, size_t n, size_t room);
void compare_censor(const uint8_t *body, size_t n);
void compare_write_censor(const uint16_t *list, size_t n, size_t room);
void compare_map(const uint8_t *body, size_t n);
void compare_map_code(const uint8_t *body, size_t n, uint64_t elevation, uint64_t azimuth, uint64_t kilometre);
/* Gives the number of differences. */
size_t compare_comparison(const uint8_t *old_map, size_t old_n, const uint8_t *new_map, size_t new_n, size_t room);

/* The output after the last question that has one. */
const uint8_t *compared_output(void);

/* How many inputs were compared. */
uint64_t compared(void);

/* Writes how often each entry gave each answer. */
void write_answers(void);

/* Writes each refusal that an entry can give and never gave; how many. */
unsigned not_reached(void);

#endif
