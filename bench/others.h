/* What the ways of GEOS and of Boost share. Their indexes only name candidates, lines whose boxes meet a box asked for;
** plane.h then decides among them in integers, the same for both, so that every answer is exact and can be compared. */
#ifndef BENCH_OTHERS_H
#define BENCH_OTHERS_H

#include "plane.h"

#include <cmath>
#include <memory>
#include <string>

/* In half-steps, as in plane.h; sides belong to it. */
struct box { int west, south, east, north; };

static inline struct box box_of(struct line l) {
  struct box b = {l.a.x, l.a.y, l.b.x, l.b.y};
  if (b.west > b.east) b.west = l.b.x, b.east = l.a.x;
  if (b.south > b.north) b.south = l.b.y, b.north = l.a.y;
  return b;
}

/* COLUMN asks once, for all lines from the point down to the edge. BANDS asks again further and further down, each band
** four times as high as the last, until no line further down can be above the best one found. If nothing is found, both ask
** upwards in the same way. */
enum form { COLUMN, BANDS, FORMS };

/* An index over the first `count` slots of a line table, all live. Built once. */
class other {
 public:
  virtual ~other() = default;
  virtual void build(const u16 *lines, size_t count) = 0;
  /* The lowest slot that conflicts with l, slot `but` left out; NOTHING if there is none. */
  virtual size_t in_the_way(struct line l, size_t but) const = 0;
  virtual void locate(enum form form, const u16 *points, size_t count, u32 *answers) const = 0;
};

/* The answer at one point, from candidates in whatever order an index has them. */
class finding {
 public:
  finding(const u16 *table, struct point asked) : lines(table), p(asked) {}

  void see(size_t slot) {
    struct line l = line_at(lines, slot);
    enum stand stand = stand_of(l, p, south);
    if (stand == ON && slot < on) on = slot;
    if (stand != COUNTS) return;
    struct line e = eastward(l);
    if (best == NOTHING || comes_first(e, first, south)) best = slot, first = e;
  }

  /* No line further on the way than this height can change the answer. */
  bool settled(int height) const {
    if (on != NOTHING) return true;
    struct point there = {p.x, static_cast<u16>(height)};
    return best != NOTHING && !beyond(turn(first.a, first.b, there), south);
  }

  /* Nothing is found below: what is seen from now on is looked at for lines above. */
  bool turns_north() {
    if (on == NOTHING && best == NOTHING) south = false;
    return !south;
  }

  u32 answer() const {
    if (on != NOTHING) return static_cast<u32>(65536 + on);
    return best == NOTHING ? 0 : answer_by(lines, best, south);
  }

 private:
  const u16 *lines;
  struct point p;
  bool south = true;
  size_t on = NOTHING, best = NOTHING;
  struct line first = {};
};

/* The questions over an index with build(lines, count) and each(box, visit). Not virtual inside, so that the visit of a
** candidate costs no call where the index is a template too. */
template <class Index> class asked_of final : public other {
 public:
  void build(const u16 *table, size_t count) override {
    lines = table;
    /* What did best of some trials on the maps of bench/maps. */
    first_band = static_cast<int>(2 * SIDE / std::sqrt(static_cast<double>(count)));
    index.build(table, count);
  }

  size_t in_the_way(struct line l, size_t but) const override {
    size_t lowest = NOTHING;
    index.each(box_of(l), [&](size_t slot) {
      if (slot != but && slot < lowest && conflict(line_at(lines, slot), l)) lowest = slot;
    });
    return lowest;
  }

  void locate(enum form form, const u16 *points, size_t count, u32 *answers) const override {
    for (size_t i = 0; i < count; i++) {
      struct point p = point_of(points[2 * i], points[2 * i + 1]);
      answers[i] = form == COLUMN ? locate_column(p) : locate_bands(p);
    }
  }

 private:
  u32 locate_column(struct point p) const {
    finding found(lines, p);
    index.each({p.x, 0, p.x, p.y}, [&](size_t slot) { found.see(slot); });
    if (found.turns_north()) index.each({p.x, p.y, p.x, SIDE}, [&](size_t slot) { found.see(slot); });
    return found.answer();
  }

  u32 locate_bands(struct point p) const {
    finding found(lines, p);
    for (int top = p.y, high = first_band; top > 0; high *= 4) {
      int bottom = top > high ? top - high : 0;
      index.each({p.x, bottom, p.x, top}, [&](size_t slot) { found.see(slot); });
      if (found.settled(bottom)) break;
      top = bottom;
    }
    if (found.turns_north()) ask_bands_above(found, p);
    return found.answer();
  }

  void ask_bands_above(finding &found, struct point p) const {
    for (int bottom = p.y, high = first_band; bottom < SIDE; high *= 4) {
      int top = bottom + high < SIDE ? bottom + high : SIDE;
      index.each({p.x, bottom, p.x, top}, [&](size_t slot) { found.see(slot); });
      if (found.settled(top)) break;
      bottom = top;
    }
  }

  Index index;
  const u16 *lines = nullptr;
  int first_band = SIDE;
};

/* GEOS's own way to ask for regions: the polygons that the lines close, with no labels. Built once. */
class polygons {
 public:
  virtual ~polygons() = default;
  /* How many there are. */
  virtual size_t build(const u16 *lines, size_t count) = 0;
  /* For each point a polygon that it is in, or on the edge of; null if there is none. */
  virtual void locate(const u16 *points, size_t count, const void **found) const = 0;
};

std::unique_ptr<other> geos_lines();
std::unique_ptr<other> boost_lines();
std::unique_ptr<polygons> geos_polygons();
std::string geos_version();
std::string boost_version();

#endif
