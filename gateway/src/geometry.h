// Outlines on the earth, and outer coverings of them by S2 cells. Nothing here knows of JSON or HTTP.
#pragma once

#include <memory>
#include <vector>

#include <s2/s2cell_id.h>

#include "budget.h"

// The service's limits.
constexpr int kLevel = 13;
constexpr int kVolumeCells = 512;
constexpr int kRequestCells = 2048;
constexpr long kCovered = 16384;

struct LatLng {
  double lat, lng;
};

using Cells = std::vector<S2CellId>;

// A region of the sphere of geodetic latitudes and longitudes that holds all points of an outline on WGS84.
class Outline {
 public:
  // The side of the corners' shortest paths that is smaller; either winding.
  static Outline polygon(std::vector<LatLng> corners);
  static Outline circle(LatLng center, double metres);

  Outline(Outline&&) noexcept;
  ~Outline();

  double square_kilometres() const { return square_kilometres_; }
  double edge_kilometres() const { return edge_kilometres_; }
  // Cells none of which is finer than the level, at most `most` of them; a Refusal where the budget does not suffice.
  Cells covering(int most, const Budget& budget) const;

 private:
  Outline();
  struct Region;  // of S2, whose headers are read in one place
  std::unique_ptr<Region> region_;
  double square_kilometres_ = 0, edge_kilometres_ = 0;
};

// How many cells of the level are covered, each cell counted.
long covered(const Cells& cells);

// The four corners of a cell, against the clock.
std::vector<LatLng> corners(S2CellId cell);

// The coverings of all outlines of a request, within the service's limits.
std::vector<Cells> coverings(const std::vector<Outline>& outlines, const Budget& budget);

// At most `most` cells that hold all those given.
Cells coarsened(Cells cells, size_t most);
