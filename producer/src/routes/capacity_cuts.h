// Rounded capacity cuts: sets of customers that a solution crosses too seldom for their demand.
//
// Whole links are shrunk. Sets grow from each customer, and where a demand has just passed a multiple of the
// capacity, a tabu search goes on. Sources: J. Lysgaard, A. Letchford and R. Eglese, A new branch-and-cut
// algorithm for the capacitated vehicle routing problem, Mathematical Programming 100 (2004); P. Augerat,
// J. Belenguer, E. Benavent, A. Corberan and D. Naddef, Separating capacity constraints in the CVRP using
// tabu search, European Journal of Operational Research 106 (1998).
#pragma once
#include <set>

#include "cuts/support.h"
#include "routes/customer_sets.h"
#include "running/random.h"

namespace certify::routes {
struct CapacityCut {
  NodeSet set;
  double slack;  // the crossings less those that are needed
};

class CapacityCuts {
 public:
  CapacityCuts(const CvrpInstance& instance, std::uint64_t seed) : instance_(instance), random_(seed) {}
  // Sets whose slack is below -least, the least slack first. Thorough looks longer.
  std::vector<CapacityCut> violated(const Graph& support, bool thorough, double least);
  // Sets that were met, with a slack in between: to branch on.
  const std::vector<CapacityCut>& between() const { return between_; }

 private:
  // By what the next node is chosen: the crossings for each part of a vehicle, the crossings alone, or the
  // slack.
  enum class Rule { kDensity, kLinks, kSlack };
  void shrink(const Graph& support);
  void link_parts(const Graph& support, const std::vector<int>& part_of);
  void add_components();
  void grow(int seed, Rule rule, bool search);
  int best_to_add(Rule rule) const;
  void search_around();
  int best_move(int routes, int step) const;
  void toggle(int part);
  void record();
  void clear();
  int routes() const { return routes_; }
  int routes_for(Weight demand) const;
  double grown_by(int part) const { return degrees_[part] - 2 * inward_[part]; }

  const CvrpInstance& instance_;
  Random random_;
  double least_ = 0.02;
  // The parts into which whole links join customers.
  std::vector<NodeSet> members_;
  std::vector<Weight> demands_;
  std::vector<double> degrees_;  // what leaves a part
  Graph links_;
  // The set at hand, by parts.
  std::vector<char> inside_;
  std::vector<double> inward_;  // of each part, what links it to the set
  std::vector<int> set_, touched_, forbidden_;
  double crossings_ = 0;
  Weight demand_ = 0;
  int routes_ = 1;  // that serve this demand
  // What was found.
  std::set<NodeSet> met_;
  std::vector<CapacityCut> found_, between_;
};
}  // namespace certify::routes
