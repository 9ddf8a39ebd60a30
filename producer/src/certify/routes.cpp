#include "certify/routes.h"

#include <iostream>
#include <utility>

#include "certify/report.h"
#include "memory/run_search.h"
#include "routes/route_search.h"
#include "routes/string_removals.h"
#include "running/refusal.h"

namespace certify::routes {
namespace {
// The loads of the certificate that is gone on with, or the finest ones.
Loads loads_for(const CvrpInstance& instance, const std::optional<Certificate>& tree) {
  if (!tree) return finest_loads(instance, kRouteTree.most_loads);
  if (auto loads = loads_in(instance, tree->load_unit)) return *loads;
  throw Refusal("the certificate's LOAD_UNIT gives too many loads");
}

// Writes the files of a search, and reports.
template <class Found>
int end_search(const Options& options, const CvrpInstance& instance, const std::optional<Routes>& given,
               Found& search, const std::vector<int>& open, Progress& progress) {
  Ending ending{length_of(instance, search.routes()), search.bound(), search.leaves()};
  if (given) ending.given = length_of(instance, *given);
  ending.limited = search.is_limited();
  const auto write = [&](const std::string& path) { write_routes(path, instance, search.routes()); };
  return end_run(options, {search.certificate(), open, write}, progress, ending);
}

// Cases have memories of their own, which may be too much for the file together. Then all cases get that of
// the root, and the better certificate stays.
std::unique_ptr<RunSearch> search_runs(const CvrpInstance& instance, const Loads& loads, RouteBegin begin,
                                       const Clock& clock, Progress& progress, const Plan& plan) {
  auto search = std::make_unique<RunSearch>(instance, loads, begin, clock, progress, plan);
  search->run();
  if (!search->is_crowded() || clock.over()) return search;
  begin.routes = search->routes();
  begin.one_memory = true;
  auto again = std::make_unique<RunSearch>(instance, loads, begin, clock, progress, plan);
  again->run();
  return again->bound() > search->bound() ? std::move(again) : std::move(search);
}

void refuse_with_memory(const Options& options) {
  if (options.tree || options.split > 0) throw Refusal("--memory: there is no --tree and no --split");
}
}  // namespace

int certify_routes(const Options& options, const std::string& tsp, std::unique_ptr<Canonical> file) {
  if (options.memory) refuse_with_memory(options);
  const CvrpInstance instance = read_cvrp(tsp, options.instance, *file);
  file.reset();
  std::optional<Routes> given;
  if (options.tour) given = read_routes(tsp, options, instance);
  RouteBegin begin{.routes = {}, .upper = options.upper, .seed = options.seed, .leaf = options.leaf};
  if (options.tree) {
    begin.tree = read_certificate(tsp, *options.tree);
    RouteCertificates(instance).check(*begin.tree, *options.tree);
  }
  const Loads loads = loads_for(instance, begin.tree);
  warn_of_lost_tour(options);
  Progress progress(options.log);
  Clock::catch_signals();
  const Clock clock(options.limit);
  const auto used = [&] { return Clock::signal() ? 1.0 : clock.used() / kRemovals.part_of_time; };
  FoundRoutes found = find_routes(instance, given, options.seed, used,
                                  options.memory ? kRemovals.steps_before_dives : kRemovals.steps);
  begin.routes = std::move(found.best);
  begin.met = std::move(found.met);
  begin.named = given.has_value();
  begin.states = options.states;
  const Plan plan{options.window, options.split, options.limits};
  if (options.memory) {
    const std::unique_ptr<RunSearch> search = search_runs(instance, loads, begin, clock, progress, plan);
    return end_search(options, instance, given, *search, {}, progress);
  }
  RouteSearch search(instance, loads, begin, clock, progress, plan);
  search.run();
  return end_search(options, instance, given, search, search.open_leaves(), progress);
}
}  // namespace certify::routes
