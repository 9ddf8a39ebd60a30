// Potentials of a TSP by subgradient ascent.
//
// Sources: M. Held, P. Wolfe, H. P. Crowder, Validation of subgradient optimization (1974); T. Volgenant, R.
// Jonker, A branch and bound algorithm for the symmetric TSP based on the 1-tree relaxation (1982), for
// directions that keep a part of the last one. Steps fall geometrically, and are in lengths near each node.
#pragma once
#include <functional>
#include <limits>

#include "points/groups.h"
#include "running/clock.h"
#include "spanning/one_tree.h"

namespace potentials {
class Ascent {
 public:
  // What it times, it times by a clock, or as processor seconds.
  explicit Ascent(const Problem& problem, bool of_processors = false);
  // Seconds that this many steps take, by timing a step and the search for candidates.
  double seconds_for(int steps);
  // As many steps take this time, by timing some, for which it also has to do.
  double steps_in(double seconds);
  // Called after each step with its number and the best bound of the candidate graph; false ends the ascent.
  using Watch = std::function<bool(int, double)>;
  // The best numbers of the nodes. How the steps fall depends on their number.
  std::vector<double> run(int steps, const Watch& watch);
  // Edges of the last candidate graph.
  const std::vector<Edge>& edges() const { return edges_; }
  // Edges that some least 1-trees of the last half of the steps had. Where the numbers are nearly best, a
  // shortest tour has few others.
  const std::vector<Edge>& support() const { return support_; }

 private:
  bool in_space() const;
  std::vector<Edge> light() const;
  void measure_lengths();
  void renew(double share);
  void add_exact();
  void take_best(double bound);
  void take_exact(const std::vector<Edge>& tree);
  void sample_tree(int step, int steps);
  void move_nodes(double size);
  void move_groups(double size);

  const Problem& problem_;
  certify::TimeLimit timing_;    // only how it counts
  std::vector<double> lengths_;  // near each node
  std::vector<Edge> near_, edges_, support_;
  OneTree one_tree_;
  Groups groups_;
  std::vector<double> numbers_, speeds_;                 // of the nodes
  std::vector<double> pulls_, pace_, squares_, shifts_;  // of the groups
  std::vector<int> degrees_;
  std::vector<double> best_, best_exact_;
  double bound_ = -std::numeric_limits<double>::infinity();        // of the best, in the candidate graph
  double bound_exact_ = -std::numeric_limits<double>::infinity();  // the best one among all pairs
  int renewed_ = 0, completed_ = 0;
  double search_seconds_ = 0;
};
}  // namespace potentials
