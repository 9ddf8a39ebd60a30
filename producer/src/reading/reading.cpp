#include "reading/reading.h"

#include "reading/instance.h"

namespace potentials {
namespace {
constexpr double kUnit = 1e9;  // coordinates are read as counts of 10^-9

Points points_in(const certify::Canonical& file) {
  Points points;
  points.metric = metric_of(file.value("EDGE_WEIGHT_TYPE"));
  points.axes = file.value("EDGE_WEIGHT_TYPE").ends_with("_3D") ? 3 : 2;
  for (const certify::Point& point : certify::points_of(file)) {
    points.x.push_back(static_cast<double>(point[0]) / kUnit);
    points.y.push_back(static_cast<double>(point[1]) / kUnit);
    points.z.push_back(static_cast<double>(point[2]) / kUnit);
  }
  return points;
}
}  // namespace

std::unique_ptr<Problem> read_problem(const std::string& tsp, const std::string& path,
                                      const certify::Canonical& file) {
  const std::vector<certify::Pair> fixed = certify::fixed_pairs(file);
  if (file.value("EDGE_WEIGHT_TYPE") == "EXPLICIT") {
    return std::make_unique<Problem>(certify::read_matrix(tsp, path, file), fixed);
  }
  return std::make_unique<Problem>(points_in(file), fixed);
}
}  // namespace potentials
