/* Sets the library beside GEOS and Boost on the same maps and points: others MAP..
** The ways take turns, as in bench.c. Answers are compared as it goes, all but those by polygons, which have no labels:
** a difference stops the run. */
#include "others.h"

extern "C" {
#include "mapfile.h"
}

#include <algorithm>
#include <cstdio>
#include <cstdlib>
#include <cstring>
#include <time.h>
#include <vector>

namespace {

enum { LIBRARY, GEOS, BOOST, POLYGONS, WAYS };
enum { POINTS = 10000, ROUNDS = 15, LOADS = 3, EDITS = 20, TRIED = 200 };

using series = std::vector<double>;
struct measured { series build, insert, locate[FORMS]; };

struct map map;
struct row rows[BOUNDARY_MAP_SLOTS_MAX];
size_t lines;
char name[64];
u16 points[2 * POINTS];
u32 answers[POINTS], theirs[POINTS];
measured results[WAYS];
size_t closed; /* polygons */

void fail(const char *what) {
  fprintf(stderr, "%s: %s\n", name, what);
  exit(1);
}

double now() {
  struct timespec t;
  clock_gettime(CLOCK_THREAD_CPUTIME_ID, &t);
  return static_cast<double>(t.tv_sec) * 1e6 + static_cast<double>(t.tv_nsec) / 1e3;
}

template <class Work> void record(series &to, Work work, size_t times = 1) {
  double t = now();
  work();
  to.push_back((now() - t) / static_cast<double>(times));
}

double median(series s) {
  if (s.empty()) return 0;
  std::sort(s.begin(), s.end());
  return s[s.size() / 2];
}

void load() {
  boundary_map_start(MAP_OF(&map));
  for (size_t i = 0; i < lines; i++)
    if (boundary_map_refusal(boundary_map_insert(MAP_OF(&map), ROW_OF(rows[i])))) fail("a line was refused");
}

/* A line chosen by chance is taken and put back, which leaves it in its slot. */
void time_edit() {
  size_t slot = some(static_cast<u32>(lines));
  const u16 *e = map.lines + SLOT * slot;
  struct row r = rows[slot];
  u64 done = boundary_map_delete(MAP_OF(&map), boundary_map_handle(static_cast<u16>(slot), e[BOUNDARY_MAP_GENERATION]));
  if (boundary_map_refusal(done)) fail("a delete was refused");
  record(results[LIBRARY].insert, [&] { done = boundary_map_insert(MAP_OF(&map), ROW_OF(r)); });
  if (boundary_map_refusal(done)) fail("an insert was refused");
}

void locate() {
  u64 done = boundary_map_locate(MAP_OF(&map), points, 2 * POINTS, answers, POINTS);
  if (boundary_map_refusal(done)) fail("a lookup was refused");
}

void time_library() {
  for (int i = 0; i < EDITS; i++) time_edit();
  record(results[LIBRARY].locate[0], locate);
}

/* The lines of a map never conflict: some that may, short and long. */
void try_conflicts(const other &o) {
  for (int i = 0; i < TRIED; i++) {
    u32 x1 = some(15360), y1 = some(15360);
    u32 x2 = i % 2 ? x1 + some(1024) : some(16384), y2 = i % 2 ? y1 + some(1024) : some(16384);
    struct line l = line_of(x1, y1, x2, y2);
    if (same_point(l.a, l.b)) continue;
    if (o.in_the_way(l, NOTHING) != first_conflict(map.lines, SLOTS, l)) fail("conflicts differ");
  }
}

/* A new object each time: what it takes to free one is not measured. */
void time_other(other &o, measured &m) {
  size_t met = 0;
  record(m.build, [&] { o.build(map.lines, lines); });
  /* Each line of the map as if it were one more. All in one time: the clock would weigh more than one of them. */
  record(m.insert, [&] {
    for (size_t s = 0; s < lines; s++) met += o.in_the_way(line_at(map.lines, s), s) != NOTHING;
  }, lines);
  if (met) fail("conflicts differ");
  try_conflicts(o);
  for (int form = 0; form < FORMS; form++) {
    record(m.locate[form], [&] { o.locate(static_cast<enum form>(form), points, POINTS, theirs); });
    if (memcmp(theirs, answers, sizeof answers)) fail("answers differ");
  }
}

void time_polygons(polygons &p, measured &m) {
  static const void *found[POINTS];
  record(m.build, [&] { closed = p.build(map.lines, lines); });
  record(m.locate[0], [&] { p.locate(points, POINTS, found); });
}

/* Only fields are polygons all over; on a map with a few of them, most points would be in none. */
bool has_fields() { return strncmp(name, "fields", 6) == 0; }

void take_turn(int way) {
  switch (way) {
    case LIBRARY: return time_library();
    case GEOS: return time_other(*geos_lines(), results[GEOS]);
    case BOOST: return time_other(*boost_lines(), results[BOOST]);
    default: if (has_fields()) time_polygons(*geos_polygons(), results[POLYGONS]);
  }
}

void measure() {
  for (measured &m : results) m = measured();
  for (int i = 0; i < LOADS; i++) record(results[LIBRARY].build, load);
  locate();
  for (int i = 0; i < ROUNDS; i++)
    for (int k = 0; k < WAYS; k++) take_turn(i % 2 ? WAYS - 1 - k : k);
}

void print_heading() {
  printf("The library beside GEOS %s and Boost %s: microseconds of processor time, medians.\n", geos_version().c_str(),
         boost_version().c_str());
  puts("build     the library has only one insert after another; theirs is an index over all lines at once, as new");
  puts("insert    the library's whole call, which checks all its tables first and builds its tree anew");
  puts("conflict  theirs: one more line tested against the lines that the index names; nothing is checked or inserted");
  puts("locate    10,000 points: the library's whole call, with its check; theirs, with none, by whole columns (c) or");
  puts("          by bands that grow downwards (b), whichever is faster; times: theirs over the library's");
  puts("polygons  of fields: they have no labels, so these answers are not compared\n");
  printf("%-17s | %-24s | %-34s | %-34s | %s\n", "", "library", "GEOS, lines", "Boost, lines", "GEOS, polygons");
  printf("%-11s %5s | %8s %7s %7s", "map", "lines", "build", "insert", "locate");
  for (int i = 0; i < 2; i++) printf(" | %7s %8s %9s %7s", "build", "conflict", "locate", "times");
  printf(" | %6s %8s %8s %7s\n", "closed", "build", "locate", "times");
}

void print_other(const measured &m, double library) {
  double by[FORMS] = {median(m.locate[COLUMN]), median(m.locate[BANDS])};
  enum form best = by[BANDS] < by[COLUMN] ? BANDS : COLUMN;
  printf(" | %7.1f %8.2f %7.0f %c %7.2f", median(m.build), median(m.insert), by[best], best == BANDS ? 'b' : 'c',
         by[best] / library);
}

void print_map() {
  double library = median(results[LIBRARY].locate[0]), in_polygons = median(results[POLYGONS].locate[0]);
  printf("%-11s %5zu | %8.0f %7.1f %7.0f", name, lines, median(results[LIBRARY].build),
         median(results[LIBRARY].insert), library);
  print_other(results[GEOS], library);
  print_other(results[BOOST], library);
  if (has_fields())
    printf(" | %6zu %8.0f %8.0f %7.2f\n", closed, median(results[POLYGONS].build), in_polygons, in_polygons / library);
  else
    printf(" | %6s %8s %8s %7s\n", "-", "-", "-", "-");
  fflush(stdout);
}

}  // namespace

int main(int argc, char **argv) {
  for (u16 &p : points) p = static_cast<u16>(some(16384));
  print_heading();
  for (int i = 1; i < argc; i++) {
    lines = read_rows(argv[i], rows);
    name_of(argv[i], name, sizeof name);
    if (lines == 0) fail("no lines");
    measure();
    print_map();
  }
  return 0;
}
