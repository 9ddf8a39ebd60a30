// The tree of a CVRP's cases, whose branches are on sets: what the searches by q-routes (route_search.h) and
// by runs with a memory (memory/run_search.h) have in common.
//
// The open case with the least bound is next. Cases are solved at once, and the tree is the same for any
// number of threads.
#pragma once
#include <oneapi/tbb/enumerable_thread_specific.h>

#include <algorithm>
#include <sstream>
#include <string>
#include <utility>

#include "routes/route_case.h"
#include "routes/route_certificate.h"
#include "routes/route_parameters.h"
#include "routes/string_removals.h"
#include "running/job_window.h"
#include "running/progress.h"
#include "tree/case_tree.h"
#include "tree/search.h"

namespace certify::routes {
// What a search begins with.
struct RouteBegin {
  Routes routes;
  std::vector<Route> met{};  // routes that join the first linear program
  bool named = false;        // the plan is one that was named
  std::optional<Weight> upper{};
  std::uint64_t seed = 1;
  std::optional<Certificate> tree{};    // that is gone on with
  std::optional<int> leaf{};            // the one leaf of it that is, from 1 on
  std::optional<std::size_t> states{};  // of a leaf, in place of those that the checker keeps
  bool one_memory = false;              // whether all cases have the root's memory and rows
};

// A Kind has the Numbers of a case, the Start that a branch leaves to its cases, the Case and its Outcome,
// the Solver and the Bound.
template <class Kind>
class SetSearch {
 public:
  const Routes& routes() const { return goal_.routes; }
  // The least bound of the leaves, as reckoned here.
  Weight bound() const { return bound_.bound_of(least_); }
  int leaves() const { return leaves_; }
  // Whether leaves are open because of the limits of a file.
  bool is_limited() const { return limited_; }

 protected:
  using Tree = CaseTree<SetBranch, typename Kind::Numbers, typename Kind::Start>;
  struct Job {
    int place = -1;
    typename Kind::Case here{};
    typename Kind::Outcome outcome{};
  };
  using Window = JobWindow<Job>;

  SetSearch(const CvrpInstance& instance, const Loads& loads, const RouteBegin& begin, const Clock& clock,
            Progress& progress, const Plan& plan, Weight scale)
      : instance_(instance),
        problem_{instance, loads, scale},
        begin_(begin),
        clock_(clock),
        progress_(progress),
        plan_(plan),
        goal_{begin.routes, length_of(instance, begin.routes), 0},
        bound_(instance, loads, scale),
        window_(plan.window),
        made_(instance, scale, loads.unit) {
    goal_.target = begin.upper ? std::min(*begin.upper, goal_.length) : goal_.length;
  }
  ~SetSearch() = default;

  // Finishes the open cases that reach the target, where a shorter plan was found.
  virtual void finish_reached() = 0;
  // Takes what came of a case.
  virtual void take(int place, typename Kind::Outcome& outcome) = 0;
  // Whether a file has no room for another branch.
  virtual bool is_full() { return false; }
  // What the log says of the last program.
  virtual std::string counts() const = 0;

  Value aim() const { return value_to_reach(goal_.target, problem_.scale); }

  std::vector<Limit> limits_of(int place) const {
    std::vector<Limit> limits = above_;
    tree_.list_above(place, [&](const SetBranch& branch, bool first) {
      limits.push_back({branch.set, first, branch.t});
    });
    return limits;
  }

  typename Kind::Case case_of(int place) {
    typename Kind::Case here;
    here.limits = limits_of(place);
    here.start = std::exchange(tree_[place].start, nullptr);
    here.goal = goal_;
    here.seed = begin_.seed + 0x9E3779B97F4A7C15ull * ++begun_cases_;
    if constexpr (requires { here.numbers; }) here.numbers = tree_[place].numbers;
    return here;
  }

  typename Kind::Solver& own_solver() {
    std::unique_ptr<typename Kind::Solver>& solver = solvers_.local();
    if (!solver) solver = std::make_unique<typename Kind::Solver>(problem_, clock_);
    return *solver;
  }

  Weight least_bound() const {
    const Value least = tree_.least(window_);
    return least == -kNoValue ? goal_.target : std::min(bound_.bound_of(least), goal_.target);
  }

  void log(std::string_view event, Weight length, Weight bound, int leaves, std::size_t open) {
    std::ostringstream more;
    more << R"("leaves": )" << leaves << R"(, "open": )" << open << R"(, "cuts": )" << counts();
    progress_.log(event, length, bound, more.str());
  }
  void log(std::string_view event, Weight bound) {
    log(event, goal_.length, bound, leaves_, tree_.unfinished(window_));
  }

  // A round of the first case.
  void log_round(Weight length, Weight bound) {
    progress_.show(Standing{length, std::min(bound, length), 0, 1});
    log("round", length, std::min(bound, length), 0, 1);
  }

  // Goes on with a plan where it is shorter; whether it is.
  bool take_plan(const std::optional<Routes>& plan) {
    const Weight length = plan ? length_of(instance_, *plan) : goal_.length;
    if (length >= goal_.length) return false;
    goal_ = {*plan, length, std::min(goal_.target, length)};
    return true;
  }

  // Looks for a plan once more where the whole problem has a large gap, unless a plan was named.
  void look_again(double large_gap) {
    const Weight gap = goal_.length - least_bound();
    const double large = large_gap * static_cast<double>(std::abs(goal_.length));
    if (begin_.named || begin_.tree || static_cast<double>(gap) <= large) return;
    const double begun = clock_.used();
    const FoundRoutes found = find_routes(instance_, std::nullopt, begin_.seed + 1, [&] {
      const bool late = clock_.over(kRouteTree.part_of_time);
      return late ? 1.0 : (clock_.used() - begun) / kRouteTree.part_of_second_search;
    });
    if (take_plan(found.best)) log("tour", least_bound());
  }

  void finish(int place) {
    tree_[place].done = true;
    tree_[place].start = nullptr;
    leaves_++;
    log("leaf", least_bound());
  }

  // Begins the next case, or none until another one has ended. False where all are done or the time is over.
  bool begin(Job& job) {
    finish_reached();
    if (tree_.ends(window_, plan_.split) || clock_.over(kRouteTree.part_of_time) || is_full()) return false;
    if (!tree_.open().empty()) {
      job.place = tree_.take_least();
      job.here = case_of(job.place);
    }
    const auto open = static_cast<int>(tree_.unfinished(window_));
    progress_.show(Standing{goal_.length, least_bound(), leaves_, open});
    return true;
  }

  void solve(typename Window::Slot& slot) {
    const std::lock_guard own(slot.access);
    if (slot.job.place < 0) return;
    slot.job.outcome = own_solver().solve(slot.job.here);
    slot.job.here = {};
  }

  // Solves case by case, until all are done.
  void solve_cases() {
    window_.run([this](Job& job) { return begin(job); }, [this](typename Window::Slot& slot) { solve(slot); },
                [this](Job& job) {
                  if (job.place >= 0) take(job.place, job.outcome);
                });
  }

  // Lists the tree for the file, in which add_leaf(place) lists a leaf.
  template <class AddLeaf>
  void list_tree(const AddLeaf& add_leaf) {
    leaves_ = 0;
    tree_.list([&](const SetBranch& branch) { made_.add_branch(branch.set, branch.t); },
               [&](int place) {
                 leaves_++;
                 add_leaf(place);
               });
  }

  const CvrpInstance& instance_;
  const RouteProblem problem_;
  const RouteBegin& begin_;
  const Clock& clock_;
  Progress& progress_;
  const Plan plan_;
  std::vector<Limit> above_{};  // what is decided at the root
  RouteGoal goal_;
  typename Kind::Bound bound_;
  Tree tree_;
  oneapi::tbb::enumerable_thread_specific<std::unique_ptr<typename Kind::Solver>> solvers_;
  Window window_;
  std::uint64_t begun_cases_ = 0;
  CertificateMaker made_;
  Value least_ = -kNoValue;
  int leaves_ = 0;
  bool limited_ = false;
};
}  // namespace certify::routes
