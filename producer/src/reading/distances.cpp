#include "reading/distances.h"

#include <algorithm>
#include <cmath>
#include <cstdlib>

namespace potentials {
Metric metric_of(std::string_view kind) {
  if (kind.starts_with("MAN")) return Metric::kManhattan;
  if (kind.starts_with("MAX")) return Metric::kMaximum;
  if (kind == "ATT") return Metric::kAtt;
  return kind == "CEIL_2D" ? Metric::kCeil : Metric::kEuclid;
}
}  // namespace potentials

namespace certify {
namespace {
using potentials::Metric;
__extension__ typedef unsigned __int128 Wide;
constexpr Weight kUnit = 1000000000;

// The largest whole number whose square is at most this one.
Wide square_root(Wide square) {
  Wide root = static_cast<Wide>(std::sqrt(static_cast<long double>(square)));
  while (root * root > square) root--;
  while ((root + 1) * (root + 1) <= square) root++;
  return root;
}
}  // namespace

Weight distance_of(Metric metric, Weight x, Weight y, Weight z) {
  const Wide a = std::abs(x), b = std::abs(y), c = std::abs(z);
  const auto rounded = [](Wide distance) {
    return static_cast<Weight>((2 * distance + kUnit) / (2 * kUnit));
  };
  if (metric == Metric::kManhattan) return rounded(a + b + c);
  if (metric == Metric::kMaximum) return rounded(std::max({a, b, c}));
  const Wide square = a * a + b * b + c * c;
  if (metric == Metric::kEuclid) {
    return static_cast<Weight>((square_root(4 * square) + kUnit) / (2 * kUnit));
  }
  if (square == 0) return 0;
  return static_cast<Weight>(square_root((square - 1) / (metric == Metric::kAtt ? 10 : 1)) / kUnit + 1);
}

Matrix distances_of(std::string_view kind, const std::vector<Point>& points) {
  const Metric metric = potentials::metric_of(kind);
  Matrix distances(static_cast<int>(points.size()));
  for (int i = 0; i < distances.nodes(); i++) {
    for (int j = i + 1; j < distances.nodes(); j++) {
      const Point& a = points[i];
      const Point& b = points[j];
      distances.set(i, j, distance_of(metric, a[0] - b[0], a[1] - b[1], a[2] - b[2]));
    }
  }
  return distances;
}

Matrix distances_of(const Canonical& file) {
  return distances_of(file.value("EDGE_WEIGHT_TYPE"), points_of(file));
}
}  // namespace certify
