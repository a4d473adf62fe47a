/* Boost's R-tree over the boxes of lines, packed. */
#include "others.h"

#define BOOST_ALLOW_DEPRECATED_HEADERS /* Boost 1.74 notes one among its own */
#include <boost/geometry/geometries/box.hpp>
#include <boost/geometry/geometries/point.hpp>
#include <boost/geometry/index/rtree.hpp>
#include <boost/iterator/function_output_iterator.hpp>
#include <boost/version.hpp>

#include <utility>
#include <vector>

namespace {

namespace bg = boost::geometry;
namespace bgi = boost::geometry::index;

/* Boxes and not segments: whether a segment meets a box is decided in floating point, and was no faster in a trial. */
using spot = bg::model::point<int, 2, bg::cs::cartesian>;
using extent = bg::model::box<spot>;
using entry = std::pair<extent, unsigned>;
/* Of 4, 8 and 16 entries to a node the quickest; how nodes are split does not matter to a packed tree. */
using tree_of_lines = bgi::rtree<entry, bgi::linear<16>>;

extent extent_of(struct box b) { return extent(spot(b.west, b.south), spot(b.east, b.north)); }

class boost_index {
 public:
  void build(const u16 *lines, size_t count) {
    std::vector<entry> entries;
    entries.reserve(count);
    for (size_t s = 0; s < count; s++)
      entries.emplace_back(extent_of(box_of(line_at(lines, s))), static_cast<unsigned>(s));
    tree = tree_of_lines(entries);
  }

  template <class Visit> void each(struct box b, Visit visit) const {
    tree.query(bgi::intersects(extent_of(b)),
               boost::make_function_output_iterator([&](const entry &e) { visit(e.second); }));
  }

 private:
  tree_of_lines tree;
};

}  // namespace

std::unique_ptr<other> boost_lines() { return std::make_unique<asked_of<boost_index>>(); }

std::string boost_version() {
  return std::to_string(BOOST_VERSION / 100000) + "." + std::to_string(BOOST_VERSION / 100 % 1000) + "." +
         std::to_string(BOOST_VERSION % 100);
}
