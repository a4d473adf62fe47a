/* Points of one kind, by chance: on no line, and with a line that counts below them, or with none. */
#ifndef BENCH_POINTS_H
#define BENCH_POINTS_H

#include <stddef.h>
#include <stdint.h>

enum kind { SOME_BELOW, NONE_BELOW };

/* Fills the list with so many points of this kind, over the lines of the first slots, and gives the number that was found. Sixteen
** are drawn for each that is wanted, at most: if they hold too few of the kind, those found are repeated; if none, the list stays
** as it was. */
size_t draw_points(const uint16_t *lines, size_t slots, enum kind kind, uint16_t *points, size_t wanted);

#endif
