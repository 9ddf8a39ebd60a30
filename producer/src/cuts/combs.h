// Looks for combs that a solution of the linear program crosses too little. For a handle the best
// teeth among the runs of a tour are found exactly, by an interval programme with parity, or a
// greedy choice of edges as teeth; handles come from parts of the support graph, from growth, and by
// hill climbing over single nodes and paths of whole edges.
// Sources: M. Padberg and S. Hong (1980); D. Applegate, R. Bixby, V. Chvatal and W. Cook (2006).
#pragma once
#include <cstdint>
#include <functional>

#include "cuts/handle.h"
#include "cuts/handle_table.h"
#include "cuts/runs.h"
#include "running/parameters.h"
#include "running/random.h"

namespace certify {
struct FoundComb {
  double violation;
  std::vector<NodeSet> sets;
};

class CombSearch {
 public:
  // The effort says how many of the best handles are climbed from, and how large sets may be.
  CombSearch(const Graph& graph, const CutPool& pool, const Runs& runs, Random& random, const Effort& effort);
  // Known sets are handles to begin with. Where stop says so, it ends with the combs that are found by then.
  std::vector<FoundComb> find(
      const std::vector<NodeSet>& known, const std::function<bool()>& stop = [] { return false; });

 private:
  struct Interval {
    int left, right;  // places from the base on
    double gain;
    const Run* run;
  };
  // The best of the first intervals, by the parity of their number.
  struct Choice {
    double best[2];
    bool taken[2];
    int before;  // as many intervals end before the last one begins
  };
  struct Spoke {
    double value;
    int inside, outside;
  };
  struct Step {
    double violation = -8;
    int node = -1;
    bool path = false;
  };
  // The violation, or an upper bound of it that is at most enough.
  double with_runs(double enough);
  double best_runs(double enough);
  double with_edges();
  std::vector<Spoke> choose_spokes(double& gain);
  double list_ends();
  void list_intervals();
  void keep(double violation, const std::vector<int>& chosen);
  void seed(const NodeSet& set);
  void seed_parts();
  void seed_without_ends(const NodeSet& part, double margin);
  void grow(int start, bool by_chance);
  void climb(const NodeSet& start);
  Step best_step();
  void look(int node, bool path, Step& best);
  std::vector<int> ends_of_handle();
  void flip_path(int node, bool inside);
  bool fractional(int node) const;

  const Graph& graph_;
  const Runs& runs_;
  Random& random_;
  const Effort& effort_;
  double least_;
  int count_;
  Handle handle_;
  std::vector<NodeSet> paths_;  // of whole edges
  std::vector<int> path_of_;
  HandleTable seen_;
  std::vector<std::pair<double, NodeSet>> seeds_;
  std::vector<FoundComb> found_;
  std::vector<int> ends_;
  std::vector<Interval> intervals_;
  std::vector<Choice> choices_;
  std::vector<char> used_;
  std::vector<double> back_;
};
}  // namespace certify
