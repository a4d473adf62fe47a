#include "points.h"

#include "mapfile.h"
#include "plane.h"

/* By a scan of all lines: the library's answers play no part, so that the points are those of any library. */
static bool is_of_kind(const u16 *lines, size_t slots, enum kind kind, struct point p) {
  bool below = false;
  for (size_t s = 0; s < slots; s++) {
    enum stand stand = stand_of(line_at(lines, s), p, true);
    below |= stand == COUNTS;
    if ((stand == ON) | (below & (kind == NONE_BELOW))) return false;
  }
  return below == (kind == SOME_BELOW);
}

size_t draw_points(const uint16_t *lines, size_t slots, enum kind kind, uint16_t *points, size_t wanted) {
  size_t found = 0;
  for (size_t draws = 16 * wanted; draws > 0 && found < wanted; draws--) {
    u16 x = (u16)some(16384), y = (u16)some(16384);
    if (!is_of_kind(lines, slots, kind, point_of(x, y))) continue;
    points[2 * found] = x;
    points[2 * found++ + 1] = y;
  }
  for (size_t i = 2 * found; found > 0 && i < 2 * wanted; i++) points[i] = points[i - 2 * found];
  return found;
}
