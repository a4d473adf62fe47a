/* Writes the made maps of bench/maps anew: make-maps DIRECTORY. A line that the library refuses is left out, so that
** every map has no conflict and fits. Always the same maps: the seed is fixed. */
#include "mapfile.h"

#include <stdio.h>
#include <stdlib.h>

static struct map map;
static FILE *out;
static unsigned written;

static void begin(const char *directory, const char *name) {
  char path[512];
  snprintf(path, sizeof path, "%s/%s.txt", directory, name);
  out = fopen(path, "w");
  if (!out) {
    perror(path);
    exit(1);
  }
  written = 0;
  boundary_map_start(MAP_OF(&map));
}

static void end(const char *name) {
  printf("%s: %u lines\n", name, written);
  fclose(out);
}

static void put(unsigned x1, unsigned y1, unsigned x2, unsigned y2, unsigned left, unsigned right) {
  struct row r = {(uint16_t)x1, (uint16_t)y1, (uint16_t)x2, (uint16_t)y2, (uint16_t)left, (uint16_t)right};
  if (boundary_map_refusal(boundary_map_insert(MAP_OF(&map), ROW_OF(r)))) return;
  fprintf(out, "%u %u %u %u %u %u\n", x1, y1, x2, y2, left, right);
  written++;
}

/* Three fields in a row: ten hedges. */
static void fields10(void) {
  static const unsigned south[4][2] = {{1200, 3900}, {6100, 4300}, {10400, 3700}, {15100, 4100}};
  static const unsigned north[4][2] = {{900, 12300}, {5800, 11800}, {10900, 12600}, {14800, 12000}};
  for (unsigned i = 0; i < 3; i++) {
    put(south[i][0], south[i][1], south[i + 1][0], south[i + 1][1], i + 1, 0);
    put(north[i][0], north[i][1], north[i + 1][0], north[i + 1][1], 0, i + 1);
  }
  for (unsigned i = 0; i < 4; i++) put(south[i][0], south[i][1], north[i][0], north[i][1], i, i == 3 ? 0 : i + 1);
}

/* Long thin wedges: two hedges from one end to two places 12 to 40 steps apart, closed by a third. */
static void slivers(void) {
  for (unsigned i = 0; i < 4000 && written < 300; i++) {
    unsigned x = 1000 + some(14000), y = 1000 + some(14000), length = 300 + some(500), wide = 12 + some(28);
    unsigned up = some(600), x2 = x + length, y2 = y + up;
    if (x2 > 16383 || y2 + wide > 16383) continue;
    put(x, y, x2, y2, i + 1, 0);
    put(x, y, x2, y2 + wide, 0, i + 1);
    put(x2, y2, x2, y2 + wide, i + 1, 0);
  }
}

/* Plots of ten furrows, 24 steps apart, each plot turned its own way. */
static void furrows(void) {
  for (unsigned plot = 0; plot < 20; plot++) {
    unsigned x = 600 + plot % 5 * 3000 + some(200), y = 600 + plot / 5 * 3500 + some(200), lean = some(300);
    for (unsigned i = 0; i < 10; i++) {
      if (plot % 2 == 0) put(x, y + 24 * i, x + 900, y + 24 * i + lean, plot + 1, plot + 1);
      else put(x + 24 * i, y, x + 24 * i + lean, y + 900, plot + 1, plot + 1);
    }
  }
}

/* Loose fences of up to 300 steps, anywhere. */
static void fences(void) {
  for (unsigned i = 0; i < 4000 && written < 1000; i++) {
    unsigned x = some(16000), y = some(16000);
    put(x, y, x + some(300), y + some(300), i % 500 + 1, i % 499 + 1);
  }
}

/* Wheels of 16 short spokes. */
static void fans(void) {
  static const int spoke[16][2] = {{40, 0},  {37, 15},   {28, 28},   {15, 37},  {0, 40},  {-15, 37}, {-28, 28}, {-37, 15},
                                   {-40, 0}, {-37, -15}, {-28, -28}, {-15, -37}, {0, -40}, {15, -37}, {28, -28}, {37, -15}};
  for (unsigned wheel = 0; wheel < 62; wheel++) {
    unsigned x = 500 + wheel % 8 * 2000 + some(300), y = 500 + wheel / 8 * 2000 + some(300);
    for (unsigned i = 0; i < 16; i++)
      put(x, y, (unsigned)((int)x + 8 * spoke[i][0]), (unsigned)((int)y + 8 * spoke[i][1]), i + 1, (i + 15) % 16 + 1);
  }
}

/* One hub in the middle of a block of the tree, its spokes ending just outside the block on all four sides: one leaf
** lists them all. The block has 512 steps a side; spokes end `apart` steps from each other. */
static void hub(unsigned apart) {
  unsigned west = 4096 + 4096, side = 512, x = west + side / 2, y = x, n = 0;
  for (unsigned i = apart; i < side; i += apart) {
    n++;
    put(x, y, west + i, west - 1, n, n + 1);
    put(x, y, west + i, west + side, n, n + 1);
    put(x, y, west - 1, west + i, n, n + 1);
    put(x, y, west + side, west + i, n, n + 1);
  }
}

/* Three upright ditches, 40 steps between their banks, and loose fences: over a point in a ditch stand hundreds of leaves. */
static void ditches(void) {
  for (unsigned i = 0; i < 3; i++) {
    unsigned west = 3000 + 5000 * i;
    put(west, 10, west, 16370, 1, 2);
    put(west + 40, 10, west + 40, 16370, 2, 1);
  }
  for (unsigned i = 0; i < 4000 && written < 200; i++) {
    unsigned x = some(16000), y = some(16000);
    put(x, y, x + some(100), y + some(100), i % 50 + 3, i % 49 + 3);
  }
}

static void hub250(void) { hub(8); }
static void hub500(void) { hub(4); }
static void hub1000(void) { hub(2); }

int main(int argc, char **argv) {
  static const struct { const char *name; void (*make)(void); } kinds[] = {
      {"fields10", fields10}, {"slivers", slivers}, {"furrows", furrows}, {"fences", fences},
      {"fans", fans}, {"ditches", ditches}, {"hub250", hub250}, {"hub500", hub500}, {"hub1000", hub1000}};
  if (argc != 2) return fprintf(stderr, "usage: make-maps DIRECTORY\n"), 2;
  for (size_t i = 0; i < sizeof kinds / sizeof kinds[0]; i++) {
    begin(argv[1], kinds[i].name);
    kinds[i].make();
    end(kinds[i].name);
  }
  return 0;
}
