#include "certify/large.h"

#include <algorithm>
#include <cmath>
#include <utility>

#include "certify/report.h"
#include "reading/instance.h"
#include "reading/reading.h"
#include "running/refusal.h"
#include "running/writing.h"
#include "sparse/sparse_search.h"

namespace certify {
namespace {
constexpr int kLeastNodes = 9;  // of fewer the search for tours tries all orders

// Whether points aren't all the same.
bool are_apart(const potentials::Points& points) {
  const auto differ = [](const std::vector<double>& values) {
    return std::any_of(values.begin(), values.end(), [&](double value) { return value != values[0]; });
  };
  return differ(points.x) || differ(points.y) || differ(points.z);
}
}  // namespace

bool is_large(const Options& options, const Canonical& file) {
  if (file.value("TYPE") != "TSP" || file.value("EDGE_WEIGHT_TYPE") == "EXPLICIT") return false;
  return file.nodes() > kMostNodes || (options.sparse && file.nodes() >= kLeastNodes);
}

int certify_large(const Options& options, const std::string& tsp, std::unique_ptr<Canonical> file) {
  if (options.tree || options.split > 0) {
    throw Refusal(options.instance + ": the certificate of so many nodes has one leaf, and none to share");
  }
  const std::unique_ptr<potentials::Problem> problem = potentials::read_problem(tsp, options.instance, *file);
  file.reset();
  std::optional<Tour> given;
  if (options.tour) {
    given = problem->inward(read_order(tsp, options, problem->nodes()));
    if (!problem->allows(*given)) throw Refusal(*options.tour + ": the tour doesn't use all fixed edges");
  }
  Progress progress(options.log);
  Clock::catch_signals();
  const Clock clock(options.limit);
  sparse::SparseSearch search(*problem, {given, options.seed, options.upper, options.limit}, clock, progress);
  search.run();
  Ending ending{search.length(), search.bound()};
  if (given) ending.given = std::llround(problem->length(*given));
  ending.rounded_away = are_apart(problem->points()) &&
                        is_rounded_away(search.tour(), [&](int i, int j) { return problem->cost(i, j); });
  const auto write = [&](const std::string& path) { write_tour(path, problem->outward(search.tour())); };
  return end_run(options, {search.certificate(), {}, write}, progress, ending);
}
}  // namespace certify
