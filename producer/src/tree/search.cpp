#include "tree/search.h"

#include <algorithm>
#include <utility>

#include "tree/bound_for.h"

namespace certify {
Search::Search(const Instance& instance, const Start& start, const Clock& clock, Progress& progress,
               const Plan& plan)
    : problem_(instance, start),
      clock_(clock),
      progress_(progress),
      plan_(plan),
      goal_{start.tour, length_of(instance.weights, start.tour), 0},
      pool_(instance.nodes()),
      named_(pool_, plan.limits),
      bound_(bound_for(instance, pool_, problem_.scale)),
      made_(*bound_, pool_, instance.directed),
      window_(plan.window),
      history_(std::make_shared<const History>()),
      least_(-ExactBound::nothing()) {
  goal_.target = start.upper ? std::min(*start.upper, goal_.length) : goal_.length;
  bound_->add_likely(problem_.edges);
  for (const Pair& pair : instance.fixed) above_.push_back({pair, true});
}

Standing Search::standing() const {
  const Value least = tree_.least(window_);
  const Weight reached = least == -kNoValue ? goal_.target : bound_->bound_of(least);
  const auto open = static_cast<int>(tree_.unfinished(window_));
  return {goal_.length,  std::min(reached, goal_.target), leaves_, open, rows_.subtours, rows_.combs,
          rows_.families};
}

std::vector<Decision> Search::decisions_of(int place) const {
  std::vector<Decision> decisions = above_;
  tree_.list_above(place, [&](const Pair& pair, bool used) { decisions.push_back({pair, used}); });
  std::reverse(decisions.begin() + static_cast<std::ptrdiff_t>(above_.size()), decisions.end());
  return decisions;
}

// Each thread has a solver of its own, since a solver is large.
CaseSolver& Search::own_solver() {
  std::unique_ptr<CaseSolver>& solver = solvers_.local();
  if (!solver) solver = std::make_unique<CaseSolver>(problem_, clock_);
  return *solver;
}

// The new cuts get the numbers of the pool of the tree.
void Search::renumber(Outcome& outcome) {
  std::vector<int> numbers;
  for (const auto& cut : outcome.cuts) numbers.push_back(pool_.add(cut));
  const auto number = [&](int cut) { return cut < outcome.first ? cut : numbers[cut - outcome.first]; };
  std::map<int, Weight> multipliers;
  for (const auto& [cut, multiplier] : outcome.numbers.multipliers) multipliers[number(cut)] += multiplier;
  outcome.numbers.multipliers = std::move(multipliers);
  if (!outcome.warm) return;
  WarmStart warm = *outcome.warm;
  for (int& cut : warm.basis.cuts) cut = number(cut);
  std::vector<signed char> rest(pool_.size(), 0);
  for (std::size_t cut = 0; cut < warm.experience.rest.size(); cut++)
    rest[number(static_cast<int>(cut))] = warm.experience.rest[cut];
  warm.experience.rest = std::move(rest);
  outcome.warm = std::make_shared<const WarmStart>(std::move(warm));
}

// Whether a leaf whose numbers reach the target does so in a file. Where it names too many cuts, the largest
// multipliers stay as far as cuts fit, and the numbers are mended.
bool Search::settle(int place) {
  Tree::Place& here = tree_[place];
  if (named_.fit(here.numbers)) return true;
  named_.close();
  named_.fill({here.numbers.multipliers.begin(), here.numbers.multipliers.end()});
  const std::vector<Decision> decisions = decisions_of(place);
  here.numbers = made_.restricted(here.numbers, *named_.marks(), decisions, aim(), kLeaves.many_steps);
  here.value = bound_->value(here.numbers, decisions);
  return here.value >= aim();
}

void Search::finish(int place) {
  tree_[place].done = true;
  named_.add(tree_[place].numbers);
  leaves_++;
  done_ += tree_.part_of(place);
  log("leaf");
}

// One that a file can't have is solved once more, by the cuts that the file has. Of an ATSP these may not be
// enough, since sets are named too.
void Search::take_done(int place) {
  if (settle(place)) {
    finish(place);
  } else if (problem_.instance.directed) {
    limited_ = true;
    tree_.leave(place);
  } else {
    tree_.reopen(place);
  }
}

// Branches on a case, where a file can have the branch.
void Search::go_on(int place, const Outcome& outcome) {
  if (outcome.pair && tree_.branches() < plan_.limits.branches) {
    tree_.branch(place, *outcome.pair, outcome.warm);
  } else {
    tree_.leave(place);
  }
  log("branch");
}

// Takes what came of a case.
void Search::take(int place, Outcome& outcome) {
  renumber(outcome);
  rows_ = outcome.rows;
  const Weight length = outcome.tour ? length_of(problem_.instance.weights, *outcome.tour) : goal_.length;
  const bool shorter = length < goal_.length;
  if (shorter) goal_ = {*outcome.tour, length, std::min(goal_.target, length)};
  tree_[place].numbers = std::move(outcome.numbers);
  tree_[place].value = outcome.value;
  tree_[place].start = nullptr;
  if (outcome.done) {
    take_done(place);
  } else {
    go_on(place, outcome);
  }
  if (shorter) log("tour");
}

void Search::solve_first() {
  const int root = tree_.add_next();
  const auto note = [&](std::string_view event, const Standing& standing) {
    event.empty() ? progress_.show(standing) : progress_.log(event, standing);
  };
  const Case first = first_case();
  Outcome outcome = own_solver().solve(first, note);
  shift_ = outcome.shift;
  large_tree_ = large_tree_ || outcome.large_tree;
  if (root_gap_ == 0) root_gap_ = outcome.gap;
  history_ = std::make_shared<const History>(std::move(outcome.history));
  take(root, outcome);
}

bool ends_in_time(double done, double begun, double used) {
  const double spent = used - begun;
  return spent < kTree.trial || done * (1 - begun) * (5 - 4 * used) > spent;
}

// The newest case where the tree may end in time, since the pool has cuts from near it. Else that
// with the least bound, so that the bound grows until the time is over.
int Search::next_place() {
  const bool ends = plan_.split == 0 && ends_in_time(done_, begun_, clock_.used());
  return ends ? tree_.take_newest() : tree_.take_least();
}

Case Search::case_of(int place) {
  Tree::Place& at = tree_[place];
  Case here{.decisions = decisions_of(place),
            .warm = std::exchange(at.start, nullptr),
            .rows = cuts_of(at.numbers),
            .numbers = at.numbers,
            .value = at.value,
            .goal = goal_,
            .seed = problem_.start.seed + 0x9E3779B97F4A7C15ull * ++begun_cases_,
            .known = pool_.size(),
            .allowed = named_.is_closed() ? named_.marks() : nullptr,
            .history = history_,
            .shift = shift_,
            .large_tree = large_tree_ || leaves_ >= kCutting.many_leaves,
            .root_gap = root_gap_};
  return here;
}

// Trials of branches, the latest of each pair.
void Search::remember(const History& fresh) {
  if (fresh.choices <= history_->choices) return;
  auto history = std::make_shared<History>(*history_);
  history->choices++;
  for (const auto& [pair, known] : fresh.known) {
    const auto [found, first] = history->known.emplace(pair, known);
    if (!first && found->second.when < known.when) found->second = known;
  }
  history_ = std::move(history);
}

// Takes what came of the case that was begun first.
void Search::take(Job& job) {
  if (job.place < 0) return;
  remember(job.outcome.history);
  take(job.place, job.outcome);
}

// Finishes the open cases that reach the target: where a shorter tour was found meanwhile.
void Search::finish_reached() {
  while (const std::optional<int> place = tree_.take_reaching(aim())) {
    if (settle(*place)) {
      finish(*place);
    } else {
      tree_.reopen(*place);
    }
  }
}

// Begins the next case, or none until another one has ended. False where all are done or the time is over.
bool Search::begin(Job& job) {
  finish_reached();
  if (tree_.ends(window_, plan_.split) || clock_.over(kTree.part_of_time)) return false;
  if (tree_.branches() >= plan_.limits.branches) {
    limited_ = true;
    return false;
  }
  if (!tree_.open().empty()) {
    job.place = next_place();
    job.here = case_of(job.place);
  }
  progress_.show(standing());
  return true;
}

void Search::solve(Window::Slot& slot) {
  CaseSolver& solver = own_solver();
  Job& job = slot.job;
  {
    const std::lock_guard lock(window_.access());
    if (job.place < 0) return;
    job.here.cuts = pool_.part(solver.known(), job.here.known);
  }
  const std::lock_guard own(slot.access);
  job.outcome = solver.solve(job.here);
  job.here = {};
}

void Search::grow_tree() {
  window_.run([this](Job& job) { return begin(job); }, [this](Window::Slot& slot) { solve(slot); },
              [this](Job& job) { take(job); });
}

void Search::run() {
  if (problem_.start.tree && !problem_.start.leaf) {
    take_tree(*problem_.start.tree);
  } else {
    solve_first();
  }
  begun_ = clock_.used();
  grow_tree();
  coarsen();
  drop_surplus();
  list_steps();
  Standing last = standing();
  last.bound = std::min(bound(), goal_.length);
  progress_.log("end", last);
  progress_.clear();
}
}  // namespace certify
