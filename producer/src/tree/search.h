// Branch and cut: cases by branches until each leaf reaches the target, or the time is over. A case that is
// left open keeps the best numbers above it.
//
// Cases are solved at once. A case begins when all but the last few before it have ended, and it knows what
// came of those and of no others. So the tree is the same for any number of threads. Source: M. Padberg and
// G. Rinaldi, A branch-and-cut algorithm for the resolution of large-scale symmetric traveling salesman
// problems, SIAM Review 33 (1991).
#pragma once
#include <oneapi/tbb/enumerable_thread_specific.h>

#include "running/job_window.h"
#include "running/parameters.h"
#include "tree/case_solver.h"
#include "tree/case_tree.h"
#include "tree/certificate.h"
#include "tree/named_cuts.h"
#include "tree/near_chains.h"

namespace certify {
// Whether a tree may end in time: this part of it is done, which took the time from begun to used. The guess
// is a rough one, so the tree may seem too large by a factor that falls from 5 to 1.
bool ends_in_time(double done, double begun, double used);

// How a search goes about its cases.
struct Plan {
  int window = kTree.window;  // as many are begun and not ended at most
  std::size_t split = 0;      // it ends where as many are open; 0 for never
  Extent limits = kLimits;    // of the certificate
  bool short_file = false;    // linear programs find numbers of leaves near each other
};

class Search {
 public:
  Search(const Instance& instance, const Start& start, const Clock& clock, Progress& progress,
         const Plan& plan = {});
  void run();
  // The tree, with the families of its numbers. Where it was split, all cuts of its open cases follow.
  Certificate certificate() const;
  // The leaves that don't reach the target, from 1 on.
  const std::vector<int>& open_leaves() const { return open_leaves_; }
  const Tour& tour() const { return goal_.tour; }
  Weight scale() const { return problem_.scale; }
  // Whether leaves are open because of the limits.
  bool is_limited() const { return limited_; }
  // The least bound of the leaves, as reckoned here.
  Weight bound() const { return bound_->bound_of(least_); }
  int leaves() const { return leaves_; }

 private:
  using Tree = CaseTree<Pair, Numbers, WarmStart>;  // first come the cycles that use the pair
  // A case that is solved, or was; nothing where there was none to begin.
  struct Job {
    int place = -1;
    Case here{};
    Outcome outcome{};
  };
  using Window = JobWindow<Job>;
  Value aim() const { return value_to_reach(goal_.target, problem_.scale); }
  std::vector<Decision> decisions_of(int place) const;
  Numbers numbers_of(const Numbers& numbers, const std::vector<int>& cuts) const;
  std::vector<int> take_families(const Certificate& tree);
  void take_tree(const Certificate& tree);
  void take_step(const TreeStep& step, const std::vector<int>& cuts);
  Case first_case();
  void solve_first();
  void grow_tree();
  bool begin(Job& job);
  void solve(Window::Slot& slot);
  void take(Job& job);
  void remember(const History& history);
  void take(int place, Outcome& outcome);
  void take_done(int place);
  void renumber(Outcome& outcome);
  void go_on(int place, const Outcome& outcome);
  bool settle(int place);
  void finish(int place);
  void finish_reached();
  int next_place();
  Case case_of(int place);
  CaseSolver& own_solver();
  void coarsen();
  void drop_surplus();
  void list_steps();
  bool add_leaf(const ListedLeaf& leaf, Numbers numbers, Numbers& last);
  Standing standing() const;
  void log(std::string_view event) { progress_.log(event, standing()); }

  const Problem problem_;
  const Clock& clock_;
  Progress& progress_;
  const Plan plan_;
  std::vector<Decision> above_;  // what is decided at the root
  std::map<std::string, std::string> notes_;
  Goal goal_;
  CutPool pool_;     // one thread after the other has it and the tree: that with access to the window
  NamedCuts named_;  // by leaves that are done
  const std::unique_ptr<ExactBound> bound_;
  std::optional<Weight> shift_;
  Leaves made_;
  std::optional<Weight> grid_;  // all numbers are multiples of it, where all leaves are done
  Tree tree_;
  oneapi::tbb::enumerable_thread_specific<std::unique_ptr<CaseSolver>> solvers_;
  Window window_;
  std::uint64_t begun_cases_ = 0;
  std::shared_ptr<const History> history_;
  std::vector<TreeStep> steps_;
  std::vector<int> open_leaves_;
  Value least_;
  int leaves_ = 0;
  std::size_t differences_ = 0;
  bool limited_ = false;
  bool large_tree_ = false;  // the tree seems to be large, so that families are worth their time
  double root_gap_ = 0;
  double begun_ = 0;  // the part of the time before the tree
  double done_ = 0;   // the part of the tree that is done, where both cases of a branch are one half
  Rows rows_;         // of the last case
};
}  // namespace certify
