/* Measures how many lines of a kind fit into the largest tables, and how long
** two close lines may be: prints the tables of docs/CAPACITY.md. */
#include <stdio.h>

#include "tables.h"

struct line {
  uint16_t x1, y1, x2, y2;
};

/* The kind's line number i; 0 if there is none. */
typedef int family(unsigned i, struct line *line);

static struct room room;
static struct boundary_map map;

static struct line between(unsigned x1, unsigned y1, unsigned x2, unsigned y2) {
  struct line line = {(uint16_t)x1, (uint16_t)y1, (uint16_t)x2, (uint16_t)y2};
  return line;
}

/* Some number below n, the same in every run. */
static unsigned some(unsigned n) {
  static uint32_t seed = 1;
  seed = seed * UINT32_C(1664525) + UINT32_C(1013904223);
  return (unsigned)(((uint64_t)seed * n) >> 32);
}

/* A corner of the fields, pushed a little out of its row and column. */
static unsigned pushed(unsigned i, unsigned j, unsigned salt) {
  uint32_t mix = (i * UINT32_C(73856093)) ^ (j * UINT32_C(19349663)) ^ (salt * UINT32_C(83492791));
  mix = (mix ^ (mix >> 13)) * UINT32_C(1274126177);
  return 300 + i * 700 + ((mix >> 16) % 240);
}

/* Fields in 21 rows and columns: each hedge runs from a corner to the next. */
static int fields(unsigned i, struct line *line) {
  unsigned row = i / 42, column = i % 42 / 2;
  if (row >= 22) return 0;
  unsigned x = pushed(column, row, 1), y = pushed(row, column, 2);
  if (i % 2 == 0) *line = between(x, y, pushed(column + 1, row, 1), pushed(row, column + 1, 2));
  else *line = between(x, y, pushed(column, row + 1, 1), pushed(row + 1, column, 2));
  return 1;
}

/* One winding ditch of 1,024 pieces: rows walked there and back. */
static void bend(unsigned i, unsigned *x, unsigned *y) {
  unsigned row = i / 32, column = row % 2 == 0 ? i % 32 : 31 - i % 32;
  *x = 200 + column * 500 + (i * 37) % 170;
  *y = 200 + row * 480 + (i * 53) % 190;
}

static int ditch(unsigned i, struct line *line) {
  unsigned x1, y1, x2, y2;
  if (i >= 1023) return 0;
  bend(i, &x1, &y1);
  bend(i + 1, &x2, &y2);
  *line = between(x1, y1, x2, y2);
  return 1;
}

/* Loose fences of up to 300 steps, anywhere. */
static int loose(unsigned i, struct line *line) {
  unsigned x = some(16000), y = some(16000), across = some(300), up = some(300);
  *line = between(x, y, x + across, y + up);
  return i < 4000;
}

/* The shortest lines there are, anywhere. */
static int shortest(unsigned i, struct line *line) {
  unsigned x = some(16383), y = some(16383);
  *line = between(x, y, x + 1, y);
  return i < 4000;
}

/* Level lines over the whole map, so many steps apart. */
static int level(unsigned i, unsigned apart, struct line *line) {
  if (i * apart > BOUNDARY_MAP_GRID_MAX) return 0;
  *line = between(0, i * apart, BOUNDARY_MAP_GRID_MAX, i * apart);
  return 1;
}

static int level512(unsigned i, struct line *line) { return level(i, 512, line); }
static int level256(unsigned i, struct line *line) { return level(i, 256, line); }
static int level128(unsigned i, struct line *line) { return level(i, 128, line); }
static int level32(unsigned i, struct line *line) { return level(i, 32, line); }
static int level8(unsigned i, struct line *line) { return level(i, 8, line); }
static int level1(unsigned i, struct line *line) { return level(i, 1, line); }

/* The same, slanted. */
static int slanted128(unsigned i, struct line *line) {
  if (i >= 96) return 0;
  *line = between(0, i * 128, BOUNDARY_MAP_GRID_MAX, i * 128 + 4096);
  return 1;
}

/* A fan from near a corner; far ends so many steps apart. */
static int fan(unsigned i, unsigned apart, struct line *line) {
  if (100 + i * apart > BOUNDARY_MAP_GRID_MAX) return 0;
  *line = between(100, 100, 16000, 100 + i * apart);
  return 1;
}

static int fan1024(unsigned i, struct line *line) { return fan(i, 1024, line); }
static int fan256(unsigned i, struct line *line) { return fan(i, 256, line); }
static int fan64(unsigned i, struct line *line) { return fan(i, 64, line); }
static int fan4(unsigned i, struct line *line) { return fan(i, 4, line); }

/* Short fans side by side: 16 spokes each, all round. */
static int spokes(unsigned i, struct line *line) {
  static const int x[] = {8, 8, 8, 8, 4, 0, -4, -8, -8, -8, -8, -8, -4, 0, 4, 8};
  static const int y[] = {-8, -4, 0, 4, 8, 8, 8, 8, 4, 0, -4, -7, -8, -8, -8, -6};
  unsigned wheel = i / 16, spoke = i % 16;
  int cx = 256 + (int)(wheel % 16) * 1000, cy = 256 + (int)(wheel / 16) * 1000;
  if (wheel >= 256) return 0;
  *line = between((unsigned)cx, (unsigned)cy, (unsigned)(cx + 20 * x[spoke]), (unsigned)(cy + 20 * y[spoke]));
  return 1;
}

static void begin(void) {
  map = lend(&room, BOUNDARY_MAP_SLOTS_MAX, BOUNDARY_MAP_NODES_MAX, BOUNDARY_MAP_LISTINGS_MAX);
  boundary_map_start(BOUNDARY_MAP_LENT(&map));
}

static uint32_t put(struct line line) {
  return boundary_map_refusal(boundary_map_insert(BOUNDARY_MAP_LENT(&map), line.x1, line.y1, line.x2, line.y2, 1, 2));
}

/* Puts lines in, one after another, until there is no room for the next, no
** slot, or no next line; lines in the way are passed over. */
static void measure(const char *name, family *next) {
  struct line line;
  uint32_t refusal = 0;
  begin();
  for (unsigned i = 0; refusal != BOUNDARY_MAP_NO_SLOT && refusal != BOUNDARY_MAP_NO_ROOM && next(i, &line); i++)
    refusal = put(line);
  struct fullness full = fullness_of(&map);
  const char *end = refusal == BOUNDARY_MAP_NO_ROOM ? "7, no room" : refusal == BOUNDARY_MAP_NO_SLOT ? "6, no slot" : "all in";
  printf("| %s | %zu | %s | %zu | %zu | %.1f |\n", name, full.live, end, full.used.node, full.used.listing,
         (double)full.used.node / (double)full.live);
}

/* Puts in two lines side by side, one step apart: of every 16 steps so many go
** east, and so many north. */
static int two_fit(unsigned steps, unsigned east, unsigned north) {
  unsigned x = 100 + steps * east / 16, y = 100 + steps * north / 16;
  unsigned aside = east == 0, above = east != 0;
  begin();
  return put(between(100, 100, x, y)) == BOUNDARY_MAP_DONE &&
         put(between(100 + aside, 100 + above, x + aside, y + above)) == BOUNDARY_MAP_DONE;
}

/* How long two lines can be: these fit, and one step longer they do not. */
static void measure_two(const char *name, unsigned east, unsigned north) {
  unsigned fit = 1, too_long = BOUNDARY_MAP_GRID_MAX - 100;
  while (too_long - fit > 1) {
    unsigned middle = (fit + too_long) / 2;
    if (two_fit(middle, east, north)) fit = middle;
    else too_long = middle;
  }
  two_fit(fit, east, north);
  struct fullness full = fullness_of(&map);
  printf("| %s | %u | %zu | %zu | %.1f |\n", name, fit, full.used.node, full.used.listing,
         (double)full.used.node / (double)fit);
}

int main(void) {
  puts("| Lines | put in | then | nodes | listings | nodes a line |\n|---|---|---|---|---|---|");
  measure("fields, 21 by 22, uneven", fields);
  measure("one winding ditch", ditch);
  measure("loose fences of up to 300 steps", loose);
  measure("the shortest lines, 1 step, anywhere", shortest);
  measure("wheels of 16 short spokes", spokes);
  measure("level over the whole map, 512 apart", level512);
  measure("level, 256 apart", level256);
  measure("level, 128 apart", level128);
  measure("level, 32 apart", level32);
  measure("level, 8 apart", level8);
  measure("level, 1 apart", level1);
  measure("slanted over the whole map, 128 apart", slanted128);
  measure("long fan, far ends 1024 apart", fan1024);
  measure("long fan, 256 apart", fan256);
  measure("long fan, 64 apart", fan64);
  measure("long fan, 4 apart", fan4);
  puts("\n| Two lines 1 step apart | fit for steps | nodes | listings | nodes a step |\n|---|---|---|---|---|");
  measure_two("level", 16, 0);
  measure_two("rising 1 in 16", 16, 1);
  measure_two("at 45 degrees", 16, 16);
  measure_two("upright", 0, 16);
  return ferror(stdout) != 0;
}
