// Points and their distances in doubles, by TSPLIB 95 (G. Reinelt, 1995).
#pragma once
#include <algorithm>
#include <cmath>
#include <string_view>
#include <vector>

namespace potentials {
enum class Metric { kEuclid, kCeil, kManhattan, kMaximum, kAtt };

struct Points {
  std::vector<double> x, y, z;
  Metric metric = Metric::kEuclid;
  int axes = 2;

  int size() const { return static_cast<int>(x.size()); }
  // The distance of points that are this far apart along the axes, before it is rounded.
  double raw(double dx, double dy, double dz) const {
    switch (metric) {
      case Metric::kManhattan:
        return std::abs(dx) + std::abs(dy) + std::abs(dz);
      case Metric::kMaximum:
        return std::max({std::abs(dx), std::abs(dy), std::abs(dz)});
      case Metric::kAtt:
        return std::sqrt((dx * dx + dy * dy) / 10);
      default:
        return std::sqrt(dx * dx + dy * dy + dz * dz);
    }
  }
  double rounded(double distance) const {
    const bool up = metric == Metric::kCeil || metric == Metric::kAtt;
    return up ? std::ceil(distance) : std::floor(distance + 0.5);
  }
  double cost(int i, int j) const { return rounded(raw(x[i] - x[j], y[i] - y[j], z[i] - z[j])); }
};

// That of an EDGE_WEIGHT_TYPE with points.
Metric metric_of(std::string_view kind);
}  // namespace potentials
