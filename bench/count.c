/* One call of one way on one map, for counting its instructions: count library|twin CALL MAP, where CALL is
** soundness, insert, refused, delete, locate0, locate1, locate10000, below10000, none10000, window2000, window8000 or
** windowall. Refused is an insert of the map's last line once more: every line is tested before it. locate0 is soundness: a
** locate of no points. below10000 and none10000 are locates of 10,000 points on no line, with a line that counts below or with
** none; less locate0, and by 10,000, that is what such a point costs. count scan|walk|indexed WINDOW MAP is one of the ways
** of window.h. No other call is made, so a counter that starts at its name sees it alone. */
#include "mapfile.h"
#include "points.h"
#include "window.h"

#include <stdio.h>
#include <string.h>

enum { POINTS = 10000 };

static struct map map;
static struct row rows[BOUNDARY_MAP_SLOTS_MAX];
static uint16_t points[2 * POINTS];
static uint32_t answers[POINTS];
static uint16_t slots[BOUNDARY_MAP_SLOTS_MAX + 1];

static uint64_t locate(int library, size_t count) {
  if (library) return boundary_map_locate(MAP_OF(&map), points, 2 * count, answers, count);
  return twin_locate(MAP_OF(&map), points, 2 * count, answers, count);
}

/* The window of a name, as window2000 for the one of side 2,000; NULL if it is none. */
static const struct window *window_of(const char *what) {
  if (strncmp(what, "window", 6)) return NULL;
  for (int i = 0; i < WINDOWS; i++)
    if (!strcmp(windows[i].name + 7, what + 6)) return &windows[i];
  return NULL;
}

static uint64_t window(const char *way, const struct window *w) {
  size_t len = BOUNDARY_MAP_SLOTS_MAX;
  if (!strcmp(way, "library")) return boundary_map_window(MAP_OF(&map), VIEW_OF(w, slots, len));
  if (!strcmp(way, "twin")) return twin_window(MAP_OF(&map), VIEW_OF(w, slots, len));
  if (!strcmp(way, "scan")) return window_scan(MAP_OF(&map), VIEW_OF(w, slots, len));
  if (!strcmp(way, "walk")) return window_walk(MAP_OF(&map), VIEW_OF(w, slots, len));
  return window_indexed(MAP_OF(&map), VIEW_OF(w, slots, len));
}

/* The kind of points of a call; -1 if it asks for any. */
static int kind_of_call(const char *what) {
  if (!strcmp(what, "below10000")) return SOME_BELOW;
  return strcmp(what, "none10000") ? -1 : NONE_BELOW;
}

static uint64_t call(const char *way, const char *what, size_t count) {
  int library = !strcmp(way, "library");
  uint32_t first = boundary_map_handle(0, 1);
  struct row last = rows[count - 1];
  if (!strcmp(what, "insert") || !strcmp(what, "refused"))
    return library ? boundary_map_insert(MAP_OF(&map), ROW_OF(last)) : twin_insert(MAP_OF(&map), ROW_OF(last));
  if (!strcmp(what, "delete")) return library ? boundary_map_delete(MAP_OF(&map), first) : twin_delete(MAP_OF(&map), first);
  if (window_of(what)) return window(way, window_of(what));
  if (!strcmp(what, "locate10000") || kind_of_call(what) >= 0) return locate(library, POINTS);
  return locate(library, strcmp(what, "locate1") == 0);
}

/* Draws the points that the call asks for; 0 if there are none. Says so if some are asked for more than once. */
static int choose_points(const char *what, const char *path, size_t count) {
  for (size_t i = 0; i < 2 * POINTS; i++) points[i] = (uint16_t)some(16384);
  if (kind_of_call(what) < 0) return 1;
  size_t found = draw_points(map.lines, count, (enum kind)kind_of_call(what), points, POINTS);
  if (found < POINTS) fprintf(stderr, "%s, %s: only %zu such points were drawn, and they are repeated\n", path, what, found);
  return found > 0;
}

int main(int argc, char **argv) {
  if (argc != 4) return fprintf(stderr, "usage: count library|twin|scan|walk|indexed CALL MAP\n"), 2;
  size_t count = read_rows(argv[3], rows);
  put_rows(&map, rows, strcmp(argv[2], "insert") ? count : count - 1);
  twin_build(MAP_OF(&map));
  if (!choose_points(argv[2], argv[3], count)) return fprintf(stderr, "%s: no point of %s\n", argv[3], argv[2]), 3;
  uint32_t wanted = strcmp(argv[2], "refused") ? BOUNDARY_MAP_DONE : BOUNDARY_MAP_CONFLICT;
  return boundary_map_refusal(call(argv[1], argv[2], count)) != wanted;
}
