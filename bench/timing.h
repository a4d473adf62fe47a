/* Times of calls that take turns: medians and quartiles of them, and of their ratios turn by turn. */
#ifndef BENCH_TIMING_H
#define BENCH_TIMING_H

#include <stdlib.h>
#include <string.h>
#include <time.h>

enum { MOST_TURNS = 401 };

/* Microseconds of this thread's processor time: what other programs take meanwhile is left out. */
static double now(void) {
  struct timespec t;
  clock_gettime(CLOCK_THREAD_CPUTIME_ID, &t);
  return (double)t.tv_sec * 1e6 + (double)t.tv_nsec / 1e3;
}

static int by_size(const void *a, const void *b) {
  double x = *(const double *)a, y = *(const double *)b;
  return (x > y) - (x < y);
}

/* The time that a part of the times stay below. */
static double quantile(const double *t, size_t count, double part) {
  static double sorted[MOST_TURNS];
  if (count == 0) return 0;
  memcpy(sorted, t, count * sizeof *t);
  qsort(sorted, count, sizeof *sorted, by_size);
  return sorted[(size_t)((double)(count - 1) * part + 0.5)];
}

/* The median of a's times over b's, turn by turn: what slows the machine for a while falls on both. */
static double ratio(const double *a, const double *b, size_t count) {
  static double r[MOST_TURNS];
  for (size_t i = 0; i < count; i++) r[i] = a[i] / b[i];
  return quantile(r, count, 0.5);
}

#endif
