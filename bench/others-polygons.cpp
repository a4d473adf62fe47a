/* GEOS's own way to regions: polygons of the lines, prepared, with an STRtree over them. */
#include "others-geos.h"
#include "others.h"

#include <vector>

namespace {

struct asked {
  GEOSContextHandle_t geos;
  const GEOSGeometry *spot;
  const void *found;
};

/* The tree has no way to stop at the first. */
void ask(void *prepared, void *to) {
  asked *a = static_cast<asked *>(to);
  const auto *p = static_cast<const GEOSPreparedGeometry *>(prepared);
  if (!a->found && GEOSPreparedIntersects_r(a->geos, p, a->spot) == 1) a->found = p;
}

class polygons_of_lines final : public polygons {
 public:
  polygons_of_lines() = default;
  ~polygons_of_lines() override {
    if (tree) GEOSSTRtree_destroy_r(geos, tree);
    for (const GEOSPreparedGeometry *p : prepared) GEOSPreparedGeom_destroy_r(geos, p);
    if (whole) GEOSGeom_destroy_r(geos, whole);
  }
  polygons_of_lines(const polygons_of_lines &) = delete;
  polygons_of_lines &operator=(const polygons_of_lines &) = delete;

  size_t build(const u16 *lines, size_t count) override {
    std::vector<GEOSGeometry *> strings;
    for (size_t s = 0; s < count; s++) strings.push_back(string_at(geos, lines, s));
    whole = made(GEOSPolygonize_r(geos, strings.data(), static_cast<unsigned>(count)));
    for (GEOSGeometry *s : strings) GEOSGeom_destroy_r(geos, s);
    tree = made(GEOSSTRtree_create_r(geos, 10));
    for (int i = 0; i < GEOSGetNumGeometries_r(geos, whole); i++) add(GEOSGetGeometryN_r(geos, whole, i));
    /* As in others-geos.cpp: the first question puts the tree in order. */
    GEOSSTRtree_query_r(geos, tree, whole, [](void *, void *) {}, nullptr);
    return prepared.size();
  }

  void locate(const u16 *points, size_t count, const void **found) const override {
    for (size_t i = 0; i < count; i++) {
      struct point p = point_of(points[2 * i], points[2 * i + 1]);
      GEOSGeometry *spot = made(GEOSGeom_createPointFromXY_r(geos, p.x, p.y));
      asked a = {geos, spot, nullptr};
      GEOSSTRtree_query_r(geos, tree, spot, ask, &a);
      found[i] = a.found;
      GEOSGeom_destroy_r(geos, spot);
    }
  }

 private:
  void add(const GEOSGeometry *polygon) {
    const GEOSPreparedGeometry *p = made(GEOSPrepare_r(geos, polygon));
    /* A prepared polygon makes its own index when first asked: that belongs to the build. */
    GEOSPreparedIntersects_r(geos, p, polygon);
    GEOSSTRtree_insert_r(geos, tree, polygon, const_cast<GEOSPreparedGeometry *>(p));
    prepared.push_back(p);
  }

  geos_context geos;
  GEOSGeometry *whole = nullptr;
  GEOSSTRtree *tree = nullptr;
  std::vector<const GEOSPreparedGeometry *> prepared;
};

}  // namespace

std::unique_ptr<polygons> geos_polygons() { return std::make_unique<polygons_of_lines>(); }
