#include "certify/first_tours.h"

#include <oneapi/tbb/task_arena.h>

#include <algorithm>
#include <string>
#include <utility>

#include "running/parameters.h"
#include "tours/all_orders.h"
#include "tours/arc_tours.h"
#include "tours/eax.h"
#include "tours/tours.h"

namespace certify {
bool FirstTours::are_weighed() const { return !instance_.directed && instance_.nodes() > kTours.few_nodes; }

bool FirstTours::are_kicked() const { return are_weighed() && !options_.tour; }

// By the words and the number of threads, so that it doesn't depend on the clock.
bool FirstTours::are_hurried() const {
  if (!are_kicked() || options_.limit.seconds == 0) return false;
  const double threads = oneapi::tbb::this_task_arena::max_concurrency();
  const double needed = kTours.seconds_of_member * kTours.population * instance_.nodes() / threads;
  const double at_once = options_.limit.of_processors ? threads : 1;
  return needed * at_once > kTours.part_of_time * options_.limit.seconds;
}

// Steps take far less time than what follows, and the bound of a run that has hardly any time is theirs.
void FirstTours::weigh(const potentials::Problem& problem) {
  potentials::Ascent ascent(problem);
  const std::vector<double> duals =
      ascent.run(kTours.steps_before_kicks, [](int, double) { return !Clock::signal(); });
  potentials_.resize(duals.size());
  for (std::size_t k = 0; k < duals.size(); k++) potentials_[problem.original()[k]] = duals[k];
  if (are_kicked()) kick(problem, ascent, duals);
}

// One kick for each node takes little time, and a tour without them is poor.
void FirstTours::kick(const potentials::Problem& problem, const potentials::Ascent& ascent,
                      const std::vector<double>& duals) {
  potentials::TourSearch search;
  search.seed = options_.seed;
  search.kicks = kTours.kicks_of_node * problem.nodes();
  search.watch = [&](long kicks, double) {
    return kicks < problem.nodes() ? !Clock::signal() : !clock_.over(kTours.part_of_time);
  };
  const Tour first = potentials::first_tour(problem);
  kicked_ = problem.outward(potentials::shorten(problem, first, duals, ascent.support(), search).tour);
}

void FirstTours::find_arcs(Start& start) const {
  const auto late = [&] { return clock_.over(kTours.part_of_time); };
  ArcTours found = find_arc_tours(instance_, kArcTours.runs, kArcTours.patience, options_.seed, late);
  start.tour = std::move(found.best);
  start.further = std::move(found.further);
  start.edges = std::move(found.arcs);
}

void FirstTours::cross(Start& start, int population) const {
  const Matrix costs = with_fixed_lowered(instance_.weights, instance_.fixed);
  paths_of(instance_.fixed, instance_.nodes());
  if (instance_.nodes() <= kTours.few_nodes) {
    start.tour = shortest_by_orders(costs.nodes(), [&](const Tour& tour) { return length_of(costs, tour); });
    return;
  }
  Eax eax(costs, instance_, population, options_.seed);
  start.tour = eax.run([&] { return clock_.over(kTours.part_of_time); },
                       [&](Weight) {
                         std::string line = "seconds " + std::to_string(static_cast<int>(Clock::now()));
                         progress_.show(line.append(" looking for a tour"));
                       });
  start.further = eax.snapshots();
  start.edges = eax.edges();
}

Start FirstTours::find() {
  Start start;
  start.seed = options_.seed;
  start.upper = options_.upper;
  start.named = options_.tour.has_value();
  start.leaf = options_.leaf;
  start.potentials = std::move(potentials_);
  start.families = options_.families && !instance_.directed;  // of an ATSP their gain was never measured
  if (instance_.directed) {
    find_arcs(start);
    return start;
  }
  const bool small = options_.tour || are_hurried();
  cross(start, small ? kTours.small_population : kTours.population);
  if (kicked_.empty() || !instance_.allows(kicked_)) return start;
  start.further.push_back(start.tour);
  start.further.push_back(kicked_);
  if (length_of(instance_.weights, kicked_) < length_of(instance_.weights, start.tour)) start.tour = kicked_;
  return start;
}
}  // namespace certify
