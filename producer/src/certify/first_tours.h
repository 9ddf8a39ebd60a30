// The tours that a search begins with.
#pragma once
#include "certify/options.h"
#include "points/problem.h"
#include "potentials/ascent.h"
#include "running/clock.h"
#include "running/progress.h"
#include "tree/case_solver.h"

namespace certify {
// Tours by edge assembly, and of an ATSP by exchanges of arcs. Before edge assembly comes the tour that
// tsp-potentials finds, since a clock that others keep busy may leave a population no time; the shorter one
// is kept. Where the time is too short for a population by the words alone, it is a small one.
class FirstTours {
 public:
  FirstTours(const Options& options, const Instance& instance, const Clock& clock, Progress& progress)
      : options_(options), instance_(instance), clock_(clock), progress_(progress) {}
  // Whether potentials come first: for a TSP that isn't tiny.
  bool are_weighed() const;
  // Whether kicks follow them: where no tour is named.
  bool are_kicked() const;
  // Whether the time is too short for a population.
  bool are_hurried() const;
  // The potentials of a problem of this instance, all their steps unless a signal comes, and the tour by
  // kicks.
  void weigh(const potentials::Problem& problem);
  // The tours, and what the words say of the search.
  Start find();

 private:
  void find_arcs(Start& start) const;
  void cross(Start& start, int population) const;
  void kick(const potentials::Problem& problem, const potentials::Ascent& ascent,
            const std::vector<double>& duals);

  const Options& options_;
  const Instance& instance_;
  const Clock& clock_;
  Progress& progress_;
  Tour kicked_;
  std::vector<double> potentials_;
};
}  // namespace certify
