/* GEOS's STRtree over lines, through its C interface. */
#include "others-geos.h"
#include "others.h"

#include <vector>

namespace {

class geos_index {
 public:
  geos_index() = default;
  ~geos_index() {
    if (tree) GEOSSTRtree_destroy_r(geos, tree);
    for (GEOSGeometry *s : strings) GEOSGeom_destroy_r(geos, s);
  }
  geos_index(const geos_index &) = delete;
  geos_index &operator=(const geos_index &) = delete;

  void build(const u16 *table, size_t count) {
    lines = table;
    tree = made(GEOSSTRtree_create_r(geos, 10));
    for (size_t s = 0; s < count; s++) {
      strings.push_back(string_at(geos, lines, s));
      GEOSSTRtree_insert_r(geos, tree, strings[s], const_cast<u16 *>(lines + SLOT * s));
    }
    /* The tree is put in order by the first question, whatever it is. */
    each({0, 0, 0, 0}, [](size_t) {});
  }

  template <class Visit> void each(struct box b, Visit visit) const {
    /* The tree looks at no more of a geometry than its box, and two points with that box are the quickest to make. */
    GEOSGeometry *corners = string_of(geos, b.west, b.south, b.east, b.north);
    auto tell = [&](const u16 *row) { visit(static_cast<size_t>(row - lines) / SLOT); };
    GEOSSTRtree_query_r(geos, tree, corners, [](void *row, void *to) {
      (*static_cast<decltype(tell) *>(to))(static_cast<const u16 *>(row));
    }, &tell);
    GEOSGeom_destroy_r(geos, corners);
  }

 private:
  geos_context geos;
  const u16 *lines = nullptr;
  GEOSSTRtree *tree = nullptr;
  std::vector<GEOSGeometry *> strings;
};

}  // namespace

std::unique_ptr<other> geos_lines() { return std::make_unique<asked_of<geos_index>>(); }

std::string geos_version() { return GEOS_VERSION; }
