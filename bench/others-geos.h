/* GEOS's C interface, as little of it as both of its ways need. */
#ifndef BENCH_OTHERS_GEOS_H
#define BENCH_OTHERS_GEOS_H

#include "plane.h"

#define GEOS_USE_ONLY_R_API
#include <geos_c.h>

#include <cstdio>
#include <cstdlib>

/* One for each object, freed after all that was made with it. */
class geos_context {
 public:
  geos_context() : handle(GEOS_init_r()) {}
  ~geos_context() { GEOS_finish_r(handle); }
  geos_context(const geos_context &) = delete;
  geos_context &operator=(const geos_context &) = delete;
  operator GEOSContextHandle_t() const { return handle; }

 private:
  GEOSContextHandle_t handle;
};

template <class Thing> Thing *made(Thing *thing) {
  if (!thing) fprintf(stderr, "GEOS could not make what it was asked for\n"), exit(1);
  return thing;
}

static inline GEOSGeometry *string_of(GEOSContextHandle_t geos, double x1, double y1, double x2, double y2) {
  GEOSCoordSequence *ends = made(GEOSCoordSeq_create_r(geos, 2, 2));
  GEOSCoordSeq_setXY_r(geos, ends, 0, x1, y1);
  GEOSCoordSeq_setXY_r(geos, ends, 1, x2, y2);
  return made(GEOSGeom_createLineString_r(geos, ends));
}

static inline GEOSGeometry *string_at(GEOSContextHandle_t geos, const u16 *lines, size_t slot) {
  struct line l = line_at(lines, slot);
  return string_of(geos, l.a.x, l.a.y, l.b.x, l.b.y);
}

#endif
