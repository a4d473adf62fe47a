/* Times a window on maps, beside its check, its scan and two walks of the tree that have no check: windows MAP..
** All take turns, so that what else the machine does falls on all alike; what they tell is compared as it goes. Times are
** microseconds of one call, the median of the turns; the others are medians of the turns' own ratios. */
#define _POSIX_C_SOURCE 199309L
#include "mapfile.h"
#include "timing.h"
#include "window.h"

#include <stdio.h>

enum { CALL, SCAN, WALK, INDEXED, WAYS };
enum { TURNS = 101, REPEATS = 20 }; /* a scan alone is too short for the clock */

static struct map map;
static uint16_t told[WAYS][BOUNDARY_MAP_SLOTS_MAX + 1];
static size_t count_of[WAYS];
static double times[WAYS][TURNS];

static size_t find(int way, const struct window *w) {
  uint16_t *to = told[way];
  size_t len = BOUNDARY_MAP_SLOTS_MAX;
  switch (way) {
    case SCAN: return window_scan(MAP_OF(&map), VIEW_OF(w, to, len));
    case WALK: return window_walk(MAP_OF(&map), VIEW_OF(w, to, len));
    case INDEXED: return window_indexed(MAP_OF(&map), VIEW_OF(w, to, len));
    default: return boundary_map_window(MAP_OF(&map), VIEW_OF(w, to, len));
  }
}

static void time_way(int way, const struct window *w, size_t turn) {
  double t = now();
  for (int i = 0; i < REPEATS; i++) count_of[way] = find(way, w);
  times[way][turn] = (now() - t) / REPEATS;
}

/* Whether all slots of one list are in another; both rise. */
static int is_within(int less, int more) {
  size_t k = 0;
  for (size_t i = 0; i < count_of[less]; i++) {
    while (k < count_of[more] && told[more][k] < told[less][i]) k++;
    if (k == count_of[more] || told[more][k] != told[less][i]) return 0;
  }
  return 1;
}

static void compare(const char *name) {
  if (count_of[CALL] == count_of[SCAN] && is_within(CALL, SCAN) && is_within(SCAN, WALK) && is_within(WALK, INDEXED) &&
      is_within(INDEXED, WALK))
    return;
  fprintf(stderr, "%s: the ways differ\n", name);
  exit(1);
}

static double median(int way) { return quantile(times[way], TURNS, 0.5); }

static void measure(const char *name, size_t lines, const struct window *w) {
  for (size_t turn = 0; turn < TURNS; turn++) {
    for (int i = 0; i < WAYS; i++) time_way(turn % 2 ? WAYS - 1 - i : i, w, turn);
    compare(name);
  }
  printf("%-11s %5zu  %-12s %5zu %9.2f %9.2f %9.2f %9.2f %9.3f %9.2f %9.2f\n", name, lines, w->name, count_of[SCAN],
         median(CALL), median(SCAN), median(WALK), median(INDEXED), ratio(times[SCAN], times[CALL], TURNS),
         ratio(times[WALK], times[SCAN], TURNS), ratio(times[INDEXED], times[SCAN], TURNS));
  fflush(stdout);
}

int main(int argc, char **argv) {
  static struct row rows[BOUNDARY_MAP_SLOTS_MAX];
  char name[64];
  printf("%-11s %5s  %-12s %5s %9s %9s %9s %9s %9s %9s %9s\n", "map", "lines", "window", "told", "call", "scan", "walk",
         "indexed", "scan/call", "walk/scan", "ind/scan");
  for (int i = 1; i < argc; i++) {
    size_t count = read_rows(argv[i], rows);
    name_of(argv[i], name, sizeof name);
    put_rows(&map, rows, count);
    twin_build(MAP_OF(&map));
    for (int k = 0; k < WINDOWS; k++) measure(name, count, &windows[k]);
  }
  return 0;
}
