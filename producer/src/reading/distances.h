// The distances of points as whole numbers, by exact arithmetic over the decimals as they are written. Their
// definitions are those of TSPLIB 95 (G. Reinelt, 1995), with the coordinates as counts of 10^-9.
#pragma once
#include <string_view>

#include "points/points.h"
#include "reading/canonical.h"

namespace certify {
// The distance of points that are this far apart along the axes.
Weight distance_of(potentials::Metric metric, Weight x, Weight y, Weight z);
// By an EDGE_WEIGHT_TYPE with points.
Matrix distances_of(std::string_view kind, const std::vector<Point>& points);
// Between the points of a file whose EDGE_WEIGHT_TYPE isn't EXPLICIT.
Matrix distances_of(const Canonical& file);
}  // namespace certify
