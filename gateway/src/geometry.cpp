#include "geometry.h"

#include <algorithm>
#include <cmath>
#include <string>

#include <s2/mutable_s2shape_index.h>
#include <s2/s2cap.h>
#include <s2/s2cell.h>
#include <s2/s2cell_union.h>
#include <s2/s2earth.h>
#include <s2/s2error.h>
#include <s2/s2latlng.h>
#include <s2/s2latlng_rect.h>
#include <s2/s2loop.h>
#include <s2/s2region.h>
#include <s2/s2region_coverer.h>
#include <s2/s2shape_index_buffered_region.h>

#include "refusal.h"

namespace {

// In metres, b*b/a of WGS84: no path on it is shorter than this times the angle between its ends on the sphere of geodetic
// latitudes and longitudes. The mean radius would make circles too small.
constexpr double kLeastRadius = 6335439.3;
// A shortest path on WGS84 leaves the great circle between its ends by at most 4.3e-4 times the square of the angle between
// them, as seen over drawn edges of up to 1,000 km. This is more than twice that.
constexpr double kEdgeBend = 1.0e-3;
constexpr double kLongestEdge = 0.157;  // 1,000 km
constexpr double kNoise = 1e-9;         // 6 mm, for what floating point loses
constexpr double kLargestCell = 1.6;    // in square kilometres, of the level
constexpr double kLargestRadius = 1e6;
// A comb of ten thousand vertices a hair apart takes minutes: its edges meet each cell by the thousand.
constexpr size_t kCorners = 1000;
constexpr double kClosest = 0.03 / kLeastRadius;  // 3 cm
constexpr double kEdges = 20000;                  // in kilometres, of all outlines

S2Point point(LatLng it) {
  // so that what is no number is refused, too
  if (!(std::abs(it.lat) <= 90) || !(std::abs(it.lng) <= 180))
    throw GeometryRefusal(400, "lat must be from -90 to 90, and lng from -180 to 180");
  return S2LatLng::FromDegrees(it.lat, it.lng).ToPoint();
}

S2RegionCoverer coverer(int most) {
  S2RegionCoverer::Options options;
  options.set_max_level(kLevel);
  options.set_max_cells(most);
  return S2RegionCoverer(options);
}

}  // namespace

namespace {

// A region as far as a budget goes: then it meets nothing more, so that its covering ends.
class Limited : public S2Region {
 public:
  Limited(const S2Region& region, const Budget& budget) : region_(region), budget_(budget) {}

  S2Region* Clone() const override { return new Limited(region_, budget_); }
  S2Cap GetCapBound() const override { return region_.GetCapBound(); }
  S2LatLngRect GetRectBound() const override { return region_.GetRectBound(); }
  void GetCellUnionBound(std::vector<S2CellId>* cells) const override { region_.GetCellUnionBound(cells); }
  bool Contains(const S2Cell& cell) const override { return !budget_.is_spent() && region_.Contains(cell); }
  bool MayIntersect(const S2Cell& cell) const override { return !budget_.is_spent() && region_.MayIntersect(cell); }
  bool Contains(const S2Point& point) const override { return region_.Contains(point); }

 private:
  const S2Region& region_;
  const Budget& budget_;
};

}  // namespace

struct Outline::Region {
  MutableS2ShapeIndex index;  // what a buffered region refers to
  std::unique_ptr<S2Region> held;
};

Outline::Outline() : region_(std::make_unique<Region>()) {}
Outline::Outline(Outline&&) noexcept = default;
Outline::~Outline() = default;

Outline Outline::polygon(std::vector<LatLng> corners) {
  bool is_closed = corners.size() > 1 && corners.front().lat == corners.back().lat && corners.front().lng == corners.back().lng;
  if (is_closed) corners.pop_back();
  if (corners.size() < 3) throw GeometryRefusal(400, "a polygon has three different vertices or more");
  if (corners.size() > kCorners) throw GeometryRefusal(413, "a polygon has at most 1,000 vertices: send fewer, around the same area");
  std::vector<S2Point> points;
  for (LatLng it : corners) points.push_back(point(it));
  auto loop = std::make_unique<S2Loop>();
  loop->set_s2debug_override(S2Debug::DISABLE);  // else a wrong outline ends the program
  loop->Init(points);
  S2Error error;
  if (loop->FindValidationError(&error)) throw GeometryRefusal(400, error.text());
  double longest = 0, shortest = kLongestEdge, sum = 0;
  for (size_t k = 0; k < points.size(); k++) {
    double edge = points[k].Angle(points[(k + 1) % points.size()]);
    longest = std::max(longest, edge);
    shortest = std::min(shortest, edge);
    sum += edge;
  }
  if (shortest < kClosest) throw GeometryRefusal(400, "two vertices that follow each other are less than 3 cm apart: leave one out");
  if (longest > kLongestEdge) throw GeometryRefusal(413, "an edge is over 1,000 km long: set vertices in between");
  loop->Normalize();

  Outline made;
  made.square_kilometres_ = S2Earth::SteradiansToSquareKm(loop->GetArea());
  made.edge_kilometres_ = S2Earth::RadiansToKm(sum);
  made.region_->index.Add(std::make_unique<S2Loop::OwningShape>(std::move(loop)));
  S1Angle margin = S1Angle::Radians(kNoise + kEdgeBend * longest * longest);
  made.region_->held = std::make_unique<S2ShapeIndexBufferedRegion>(&made.region_->index, S1ChordAngle(margin));
  return made;
}

Outline Outline::circle(LatLng center, double metres) {
  if (!(metres > 0)) throw GeometryRefusal(400, "a radius is above 0");
  if (metres > kLargestRadius) throw GeometryRefusal(413, "a radius is at most 1,000 km, and some 70 km fit");
  S2Cap cap(point(center), S1Angle::Radians(metres / kLeastRadius + kNoise));
  Outline made;
  made.square_kilometres_ = S2Earth::SteradiansToSquareKm(cap.GetArea());
  made.region_->held = std::make_unique<S2Cap>(cap);
  return made;
}

Cells Outline::covering(int most, const Budget& budget) const {
  Cells cells = coverer(most).GetCovering(Limited(*region_->held, budget)).Release();
  budget.check();
  return cells;
}

long covered(const Cells& cells) {
  long sum = 0;
  for (S2CellId it : cells) sum += 1L << 2 * (kLevel - it.level());
  return sum;
}

std::vector<LatLng> corners(S2CellId cell) {
  std::vector<LatLng> found;
  for (int k = 0; k < 4; k++) {
    S2LatLng it(S2Cell(cell).GetVertex(k));
    found.push_back({it.lat().degrees(), it.lng().degrees()});
  }
  return found;
}

std::vector<Cells> coverings(const std::vector<Outline>& outlines, const Budget& budget) {
  double area = 0, edges = 0;
  for (const Outline& it : outlines) {
    area += it.square_kilometres();
    edges += it.edge_kilometres();
  }
  if (edges > kEdges) throw Refusal(413, "the edges are too long, over 20,000 kilometres in all: send simpler outlines around the same area");
  if (area > kCovered * kLargestCell)
    throw Refusal(413, "the area is too large, " + std::to_string(long(area)) + " square kilometres, of which some 20,000 fit: " +
                           "split it into several requests");
  // first with as many cells as the level needs, where that is not too many
  std::vector<Cells> found;
  for (const Outline& it : outlines) found.push_back(it.covering(kRequestCells, budget));
  // the largest share that all can have: who needs less leaves the rest to the others
  size_t share = kVolumeCells;
  auto taken = [&] {
    size_t sum = 0;
    for (const Cells& it : found) sum += std::min(it.size(), share);
    return sum;
  };
  while (taken() > kRequestCells) share--;
  long sum = 0;
  for (size_t k = 0; k < found.size(); k++) {
    if (found[k].size() > share) found[k] = outlines[k].covering(int(share), budget);
    sum += covered(found[k]);
  }
  if (sum > kCovered)
    throw Refusal(413, "the area is too large, " + std::to_string(sum) + " S2 cells of level 13, of which 16,384 fit: " +
                           "split it into several requests");
  return found;
}

Cells coarsened(Cells cells, size_t most) {
  S2CellUnion held(std::move(cells));
  return held.size() <= most ? held.Release() : coverer(int(most)).GetCovering(held).Release();
}
