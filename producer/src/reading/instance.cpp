#include "reading/instance.h"

#include <algorithm>
#include <set>

#include "reading/canonical.h"
#include "reading/distances.h"
#include "reading/named_files.h"
#include "reading/tsp_program.h"
#include "running/refusal.h"

namespace certify {
namespace {
// Takes the distances of points.
void measure(const Canonical& file, Instance& instance) {
  const std::vector<Point> points = points_of(file);
  instance.weights = distances_of(file.value("EDGE_WEIGHT_TYPE"), points);
  if (!file.value("EDGE_WEIGHT_TYPE").ends_with("_3D")) {
    for (const auto& point : points) instance.points.emplace_back(point[0], point[1]);
  }
  instance.rounded =
      std::any_of(points.begin(), points.end(), [&](const auto& point) { return point != points[0]; });
}

std::vector<Pair> fixed_links(const Canonical& file, const Instance& instance) {
  std::set<Pair> pairs;
  for (const auto& [from, to] : fixed_pairs(file)) pairs.insert(instance.link(from, to));
  return {pairs.begin(), pairs.end()};
}

void refuse_other_tours(const Tour& tour, int nodes, const std::string& path) {
  const auto refuse = [&](const std::string& why) {
    throw Refusal(path + ": this is no tour of the instance, since " + why);
  };
  std::vector<char> seen(nodes, 0);
  for (const int v : tour) {
    if (v < 0 || v >= nodes) refuse("the instance has no node " + std::to_string(v + 1));
    if (seen[v] != 0) refuse("node " + std::to_string(v + 1) + " is in it twice");
    seen[v] = 1;
  }
  const auto missing = std::find(seen.begin(), seen.end(), 0) - seen.begin();
  if (missing < nodes) refuse("node " + std::to_string(missing + 1) + " isn't in it");
}

}  // namespace

bool Instance::allows(const Tour& tour) const {
  const std::vector<Pair> links = links_of(tour);
  const std::set<Pair> used(links.begin(), links.end());
  return std::all_of(fixed.begin(), fixed.end(), [&](const Pair& pair) { return used.contains(pair); });
}

Matrix read_matrix(const std::string& tsp, const std::string& path, const Canonical& file) {
  const bool full = file.value("EDGE_WEIGHT_FORMAT") == "FULL_MATRIX";
  Matrix weights = full ? full_matrix(file)
                        : full_matrix(Canonical(canonical_text(tsp, path, {"--layout", "FULL_MATRIX"})));
  if (file.value("TYPE") == "TSP" && !is_symmetric(weights)) {
    throw Refusal(path + ": the weights aren't symmetric");
  }
  return weights;
}

Instance read_instance(const std::string& tsp, const std::string& path, const Canonical& file) {
  const int nodes = file.nodes();
  if (nodes > kMostNodes) {
    throw Refusal(path + ": more than " + std::to_string(kMostNodes) + " nodes aren't taken");
  }
  Instance instance{Matrix(nodes), {}, file.value("TYPE") == "ATSP"};
  instance.fixed = fixed_links(file, instance);
  if (file.value("EDGE_WEIGHT_TYPE") == "EXPLICIT") {
    instance.weights = read_matrix(tsp, path, file);
  } else {
    measure(file, instance);
  }
  return instance;
}

Tour read_tour(const std::string& tsp, const CommonOptions& files, const Instance& instance) {
  Tour tour = read_order(tsp, files, instance.nodes());
  if (!instance.allows(tour)) throw Refusal(*files.tour + ": the tour doesn't use all fixed edges");
  return tour;
}

Tour read_order(const std::string& tsp, const CommonOptions& files, int nodes) {
  Tour tour = tour_of(read_solution(tsp, files));
  refuse_other_tours(tour, nodes, *files.tour);
  return tour;
}
}  // namespace certify
