// One case of the tree: cuts until its numbers reach the target, or else a pair to branch on. What comes of a
// case depends on nothing but the case, so that cases may be solved by any thread, and the outcome is the
// same. Source: M. Padberg and G. Rinaldi, A branch-and-cut algorithm for the resolution of large-scale
// symmetric traveling salesman problems, SIAM Review 33 (1991).
#pragma once
#include <functional>
#include <memory>
#include <optional>

#include "running/clock.h"
#include "running/parameters.h"
#include "running/progress.h"
#include "tree/branching.h"
#include "tree/certificate.h"
#include "tree/leaves.h"
#include "tree/problem.h"
#include "tree/separation.h"

namespace certify {
// What a case leaves to those of its branch.
struct WarmStart {
  Basis basis;
  Experience experience;
};

// What is known when a case begins, from the cases before it.
struct Case {
  std::vector<Decision> decisions{};        // with the fixed pairs
  std::shared_ptr<const WarmStart> warm{};  // of the parent; nothing at the root
  std::vector<int> rows{};                  // without a warm start, the cuts to begin with
  Numbers numbers{};                        // the best ones from above
  Value value = ExactBound::nothing();
  Goal goal{};
  std::uint64_t seed = 1;
  std::vector<std::shared_ptr<const Cut>> cuts{};  // of the pool, those that the solver doesn't know
  int known = 0;                                   // all cuts of the pool with them
  std::shared_ptr<const Marks> allowed{};          // cuts, where no others but subtours may join
  std::shared_ptr<const History> history{};
  std::optional<Weight> shift{};
  bool whole = false;       // it is the whole problem, for which tours and families are looked for too
  bool large_tree = false;  // families are worth their time
  double root_gap = 0;
};

// Rows of a linear program, by kind.
struct Rows {
  int subtours = 0, combs = 0, families = 0;
};

// What comes of a case: numbers that reach the target, or a pair to branch on, or neither where the time is
// over.
struct Outcome {
  bool done = false, large_tree = false;
  int first = 0;  // the number of the first cut that is new
  Numbers numbers{};
  Value value = ExactBound::nothing();
  std::optional<Pair> pair{};
  std::shared_ptr<const WarmStart> warm{};         // where there is a pair
  std::vector<std::shared_ptr<const Cut>> cuts{};  // that are new
  std::optional<Tour> tour{};                      // a shorter one
  History history{};
  double gap = 0;
  std::optional<Weight> shift{};
  Rows rows{};
};

class CaseSolver {
 public:
  // It gets events: of each round of the whole problem, and of shorter tours.
  using Note = std::function<void(std::string_view event, const Standing& standing)>;
  CaseSolver(const Problem& problem, const Clock& clock);
  Outcome solve(const Case& here, const Note& note = nullptr);
  // As many cuts it has under the same numbers as the pool of the tree.
  int known() const { return known_; }

 private:
  // When cuts stop to help: over a window of rounds the value gains less than this part of the gap.
  struct Patience {
    std::size_t window;
    double least_gain;
  };
  void load(const Case& here);
  void load_cold(const Case& here);
  bool settle(Numbers& numbers);
  bool settle_whole(Numbers& numbers);
  bool settle_by_families(Numbers& numbers);
  bool solve_round(int round, Numbers& numbers);
  bool tighten(Numbers& numbers);
  bool tighten_by_families(const Effort& effort, const Patience& patience, Numbers& numbers);
  bool is_large(double gap, double part_of_length) const;
  bool has_large_gap() const { return is_large(gap(), kCutting.large_gap); }
  bool wants_families();
  bool add_cuts(int level, int round);
  bool add_cuts(Effort effort, int round);
  bool stalled(const std::vector<double>& values, const Patience& patience) const;
  double gap() const { return static_cast<double>(goal_.target) - relaxation_.value(); }
  void improve(const Case& here, Outcome& outcome);
  void branch(Outcome& outcome);
  void widen(Numbers& numbers);
  void offer_tour();
  void take_tour(const Tour& tour);
  void look_for_tour(int population);
  Rows rows() const;
  Standing standing() const;
  void note(std::string_view event) const {
    if (note_) note_(event, standing());
  }

  const Problem& problem_;
  const Clock& clock_;
  CutPool pool_;
  int known_ = 0;
  Relaxation relaxation_;
  Separation separation_;
  Branching branching_;
  // of the case at hand
  std::unique_ptr<ExactBound> bound_;
  std::unique_ptr<Leaves> made_;
  std::vector<Decision> decisions_;
  Goal goal_{};
  bool shorter_ = false;  // the tour is shorter than the one that was given
  bool whole_ = false, large_tree_ = false;
  bool far_ = false;  // cuts may have large sets
  double root_gap_ = 0;
  std::optional<Pair> choice_;  // the branch, where it was chosen before
  Note note_;
};
}  // namespace certify
