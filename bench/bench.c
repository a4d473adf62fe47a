/* Times every call on maps, for the library, the twin and the naive way in one run: bench MAP..
** The ways take turns, call by call, so that what else the machine does falls on all alike; their answers and tables
** are compared as it goes. Times are microseconds: the median, and the quartiles of the library's; ratios are medians of
** the turns' ratios. Below and none are locates of points on no line, with a line that counts below or with none. */
#define _POSIX_C_SOURCE 199309L
#include "mapfile.h"
#include "points.h"
#include "timing.h"
#include "window.h"

#include <stdio.h>

enum { LIBRARY, TWIN, NAIVE, WAYS };
enum { SOUNDNESS, INSERT, DELETE, LOCATE1, LOCATE100, LOCATE10000, BELOW10000, NONE10000, WINDOW, CALLS = WINDOW + WINDOWS };
enum { POINTS = 10000, MOST = MOST_TURNS };

static const char *const call_names[WINDOW] = {"soundness", "insert", "delete", "locate 1", "locate 100", "locate 10000",
                                               "below 10000", "none 10000"};
static const size_t points_of[WINDOW] = {0, 0, 0, 1, 100, POINTS, POINTS, POINTS};

static struct map maps[WAYS];
static uint32_t answers[WAYS][POINTS];
static uint16_t told[WAYS][BOUNDARY_MAP_SLOTS_MAX];
static uint16_t points[2 * POINTS], with_below[2 * POINTS], with_none[2 * POINTS];
static double times[CALLS][WAYS][MOST], plain[MOST];
static size_t taken[CALLS][WAYS], plain_taken;

static void record(int call, int way, double t) {
  if (taken[call][way] < MOST) times[call][way][taken[call][way]++] = t;
}

static void fail(const char *what, const char *map) {
  fprintf(stderr, "%s: the ways differ in %s\n", map, what);
  exit(1);
}

static uint64_t insert(int way, struct row r) {
  struct map *m = &maps[way];
  if (way == LIBRARY) return boundary_map_insert(MAP_OF(m), ROW_OF(r));
  return way == TWIN ? twin_insert(MAP_OF(m), ROW_OF(r)) : naive_insert(MAP_OF(m), ROW_OF(r));
}

static uint64_t take(int way, uint32_t handle) {
  struct map *m = &maps[way];
  if (way == LIBRARY) return boundary_map_delete(MAP_OF(m), handle);
  return way == TWIN ? twin_delete(MAP_OF(m), handle) : naive_delete(MAP_OF(m), handle);
}

static uint64_t locate(int way, const uint16_t *from, size_t count) {
  const struct map *m = &maps[way];
  uint32_t *to = answers[way];
  if (way == LIBRARY) return boundary_map_locate(MAP_OF(m), from, 2 * count, to, count);
  return way == TWIN ? twin_locate(MAP_OF(m), from, 2 * count, to, count)
                     : naive_locate(MAP_OF(m), from, 2 * count, to, count);
}

static uint64_t window(int way, const struct window *w) {
  const struct map *m = &maps[way];
  size_t len = BOUNDARY_MAP_SLOTS_MAX;
  if (way == LIBRARY) return boundary_map_window(MAP_OF(m), VIEW_OF(w, told[way], len));
  return way == TWIN ? twin_window(MAP_OF(m), VIEW_OF(w, told[way], len)) : naive_window(MAP_OF(m), VIEW_OF(w, told[way], len));
}

static void load(const struct row *rows, size_t count, const char *name) {
  boundary_map_start(MAP_OF(&maps[LIBRARY]));
  twin_start(MAP_OF(&maps[TWIN]));
  for (size_t i = 0; i < count; i++) {
    uint64_t r = insert(LIBRARY, rows[i]);
    if (r != insert(TWIN, rows[i])) fail("an insert while loading", name);
    if (boundary_map_refusal(r)) fprintf(stderr, "%s: line %zu refused\n", name, i + 1), exit(1);
  }
  maps[NAIVE] = maps[LIBRARY];
}

/* Spread over the whole map; on the map of ditches all stand in the ditches, where the columns of leaves are longest. */
static void choose_points(const char *name) {
  int in_ditches = strcmp(name, "ditches") == 0;
  for (size_t i = 0; i < POINTS; i++) {
    points[2 * i] = (uint16_t)(in_ditches ? 3000 + 5000 * some(3) + 1 + some(39) : some(16384));
    points[2 * i + 1] = (uint16_t)some(16384);
  }
}

/* And by kind, over the whole map. Those of a kind that is too rare are repeated, and that is said. */
static void choose_kind(enum kind kind, uint16_t *to, size_t lines, const char *name) {
  size_t found = draw_points(maps[LIBRARY].lines, lines, kind, to, POINTS);
  if (found < POINTS) fprintf(stderr, "%s: %zu points with %s below, repeated\n", name, found, kind == SOME_BELOW ? "a line" : "none");
}

/* One line taken and put back, by the first `ways` ways, in either order. */
static void time_edit(int ways, size_t slot, int turned, const char *name) {
  uint64_t took[WAYS], put[WAYS];
  const uint16_t *e = maps[LIBRARY].lines + 8 * slot;
  uint32_t handle = boundary_map_handle((uint16_t)slot, e[1]);
  struct row r = {e[2], e[3], e[4], e[5], e[6], e[7]};
  for (int i = 0; i < ways; i++) {
    int way = turned ? ways - 1 - i : i;
    double t = now();
    took[way] = take(way, handle);
    double u = now();
    put[way] = insert(way, r);
    double v = now();
    record(DELETE, way, u - t);
    record(INSERT, way, v - u);
  }
  for (int way = 1; way < ways; way++)
    if (took[way] != took[0] || put[way] != put[0] || memcmp(&maps[way], &maps[0], sizeof maps[0])) fail("an edit", name);
  if (ways < WAYS) maps[NAIVE] = maps[LIBRARY];
}

static void time_locate(int ways, int call, int turned, const char *name) {
  uint64_t done[WAYS];
  size_t count = points_of[call];
  const uint16_t *list = call == BELOW10000 ? with_below : call == NONE10000 ? with_none : points;
  const uint16_t *from = list + 2 * (count == POINTS ? 0 : some((uint32_t)(POINTS - count)));
  for (int i = 0; i < ways; i++) {
    int way = turned ? ways - 1 - i : i;
    double t = now();
    done[way] = locate(way, from, count);
    record(call, way, now() - t);
  }
  for (int way = 1; way < ways; way++)
    if (done[way] != done[0] || memcmp(answers[way], answers[0], count * sizeof answers[0][0])) fail("a lookup", name);
}

static void time_window(int ways, int which, int turned, const char *name) {
  uint64_t done[WAYS];
  for (int i = 0; i < ways; i++) {
    int way = turned ? ways - 1 - i : i;
    double t = now();
    done[way] = window(way, &windows[which]);
    record(WINDOW + which, way, now() - t);
  }
  for (int way = 1; way < ways; way++)
    if (done[way] != done[0] || memcmp(told[way], told[0], (size_t)done[0] * sizeof told[0][0])) fail("a window", name);
}

/* All 10,000 points by list search alone, with no check of the map. */
static void time_plain(const char *name) {
  double t = now();
  naive_search(maps[NAIVE].lines, BOUNDARY_MAP_LINES_MAX, points, 2 * POINTS, answers[NAIVE], POINTS);
  plain[plain_taken++] = now() - t;
  locate(LIBRARY, points, POINTS);
  if (memcmp(answers[NAIVE], answers[LIBRARY], sizeof answers[0])) fail("the plain search", name);
}

static void measure(const char *name, size_t lines) {
  int often = 401, seldom = lines > 400 ? 7 : 15, many = 61;
  memset(taken, 0, sizeof taken);
  plain_taken = 0;
  for (int i = 0; i < often; i++) {
    int ways = i < seldom ? WAYS : NAIVE;
    time_edit(ways, some((uint32_t)lines), i % 2, name);
    time_locate(ways, SOUNDNESS, i % 2, name);
    time_locate(ways, LOCATE1, i % 2, name);
    time_locate(ways, LOCATE100, i % 2, name);
    for (int which = 0; which < WINDOWS; which++) time_window(ways, which, i % 2, name);
    for (int call = LOCATE10000; call <= NONE10000 && i < many; call++) time_locate(ways, call, i % 2, name);
    if (i < 2 * seldom) time_plain(name);
  }
}

static void print_call(const char *name, size_t lines, int call) {
  const char *what = call < WINDOW ? call_names[call] : windows[call - WINDOW].name;
  double m[WAYS], of_twin = ratio(times[call][LIBRARY], times[call][TWIN], taken[call][TWIN]);
  double faster = ratio(times[call][NAIVE], times[call][LIBRARY], taken[call][NAIVE]);
  for (int way = 0; way < WAYS; way++) m[way] = quantile(times[call][way], taken[call][way], 0.5);
  printf("%-11s %5zu  %-12s %9.1f %9.1f %9.1f %9.1f %10.1f %7.2f %8.1f\n", name, lines, what,
         quantile(times[call][LIBRARY], taken[call][LIBRARY], 0.25), m[LIBRARY],
         quantile(times[call][LIBRARY], taken[call][LIBRARY], 0.75), m[TWIN], m[NAIVE], of_twin, faster);
}

static void print_plain(const char *name, size_t lines) {
  double faster = ratio(plain, times[LOCATE10000][LIBRARY], plain_taken);
  double whole = quantile(times[LOCATE10000][LIBRARY], taken[LOCATE10000][LIBRARY], 0.5);
  double m = quantile(plain, plain_taken, 0.5);
  printf("%-11s %5zu  %-12s %9s %9.1f %9s %9s %10.1f %7s %8.1f\n", name, lines, "plain search", "-", whole, "-", "-", m,
         "-", faster);
}

int main(int argc, char **argv) {
  static struct row rows[BOUNDARY_MAP_SLOTS_MAX];
  char name[64];
  printf("%-11s %5s  %-12s %9s %9s %9s %9s %10s %7s %8s\n", "map", "lines", "call", "quarter", "library", "3 quart",
         "twin", "naive", "of twin", "faster");
  for (int i = 1; i < argc; i++) {
    size_t count = read_rows(argv[i], rows);
    name_of(argv[i], name, sizeof name);
    choose_points(name);
    load(rows, count, name);
    choose_kind(SOME_BELOW, with_below, count, name);
    choose_kind(NONE_BELOW, with_none, count, name);
    measure(name, count);
    for (int call = 0; call < CALLS; call++) print_call(name, count, call);
    print_plain(name, count);
    fflush(stdout);
  }
  return 0;
}
