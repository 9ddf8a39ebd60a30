// One round of cuts for a solution of the linear program: of the pool, subtours, and combs with runs
// of the tour and of further tours as teeth; where that is asked for, families of any sets too, and cuts
// whose nodes move to other atoms. Further tours are those that the search for a tour met, and ones by local
// search on costs that the solution lowers. Source: D. Applegate, R. Bixby, V. Chvatal and W. Cook, The
// Traveling Salesman Problem (2006).
#pragma once
#include "cuts/cut_rounds.h"
#include "cuts/quotients.h"
#include "tree/relaxation.h"

namespace certify {
// What separation learns in one case for those of its branch.
struct Experience {
  std::vector<signed char> rest;             // of each cut of the pool, the rounds that it is left out
  std::unordered_set<std::uint64_t> chunks;  // that were tried
};

class Separation {
 public:
  Separation(const Matrix& costs, CutPool& pool, Relaxation& relaxation, std::uint64_t seed);
  void set_tours(const Tour& best, const std::vector<Tour>& further);
  // Begins a case. With marks it adds no other cuts than the marked ones, and subtours.
  void begin(Experience experience, std::uint64_t seed, std::shared_ptr<const Marks> allowed = nullptr);
  const Experience& experience() const { return experience_; }
  void set_best(const Tour& best) { best_ = best; }
  // Adds subtours and cuts of the pool. Whether any joined.
  bool add_subtours();
  // The same with combs too, and what else the effort says.
  bool add_cuts(const Effort& effort);
  // Whether the last round looked for all that: it doesn't where there are many subtours.
  bool was_whole() const { return whole_; }

 private:
  struct Round {
    std::vector<int> cuts;
    TakenCombs combs;
  };
  bool is_allowed(int cut) const {
    return !allowed_ || pool_[cut].kind == CutKind::kSubtour || is_marked(*allowed_, cut);
  }
  int from_pool(Round& round);
  int subtours(Round& round);
  void combs(Round& round, const Effort& effort);
  void tighten_cuts(Round& round, const Effort& effort);
  void families(Round& round, const Effort& effort);
  std::vector<const NodeSet*> tight_sets(std::size_t largest);
  double crossed(const NodeSet& set);
  bool take(Round& round, int cut, double least_violation);
  void take_combs(Round& round, const std::vector<FoundComb>& found, const Effort& effort);
  Tour guided_tour(Random& random) const;
  Tour tour_for(int k, Random& random) const;
  struct CombTrial;
  void look(CombTrial& trial, const std::vector<NodeSet>& known, const Effort& effort) const;

  CutPool& pool_;
  Relaxation& relaxation_;
  Random random_;
  const Matrix& costs_;
  Neighbours near_;
  Tour best_;
  std::vector<Tour> further_;
  std::vector<char> scratch_;
  ViolationMeter meter_;  // of the solution at hand
  Experience experience_;
  std::shared_ptr<const Marks> allowed_;
  bool whole_ = true;
};
}  // namespace certify
