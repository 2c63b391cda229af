/*
 * What differs between two filter maps, kilometre by kilometre: the codes in both, with equal neighbours grouped.
 * It is slow and independent of plain.c, whose lists are compared with these.
 */
#ifndef KILOMETRES_H
#define KILOMETRES_H

#include <stddef.h>
#include <stdint.h>

enum { AZIMUTH_HALFWORDS = 39 * 6, MAP_HALFWORDS = 5 * 360 * AZIMUTH_HALFWORDS }; /* the most in a list */

/* Lists the differences of two maps that are accepted; how many halfwords. */
size_t list_by_kilometres(const uint8_t *old_map, const uint8_t *new_map, uint16_t *list);

#endif
