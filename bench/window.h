/* The lines in a window, found three ways with no check of the map, to set a walk of the tree beside the scan: on a sound
** map of whole tables, a rectangle that is good, and a list long enough. Each gives the number of slots told. */
#ifndef BENCH_WINDOW_H
#define BENCH_WINDOW_H

#include "ways.h"

/* As the library does: every live line, by its box and four turns. */
size_t window_scan(READ_TABLES, VIEW);

/* The least that a walk of the tree takes, without an index: the node table passed over from its start, blocks that do not
** meet the rectangle too, since nothing says where such a block ends; the lines of a leaf that meets it marked, the marks
** read out. No line is tested, so that more than those in the window may be told. */
size_t window_walk(READ_TABLES, VIEW);

/* The same with an index of the node table, which is cleared and made first: then only blocks that meet the rectangle are
** gone into. */
size_t window_indexed(READ_TABLES, VIEW);

/* The windows that are measured: squares of this side in the middle of the map, and the whole map. */
enum { WINDOWS = 3 };

struct window {
  const char *name;
  uint16_t west, south, east, north;
};

extern const struct window windows[WINDOWS];

#define VIEW_OF(w, list, len) (w)->west, (w)->south, (w)->east, (w)->north, list, len

#endif
