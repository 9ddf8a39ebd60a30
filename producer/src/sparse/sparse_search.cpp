#include "sparse/sparse_search.h"

#include <algorithm>
#include <cmath>
#include <utility>

#include "points/candidates.h"
#include "sparse/sparse_parameters.h"
#include "tours/tours.h"

namespace sparse {
namespace {
std::vector<Pair> pairs_of(const std::vector<potentials::Edge>& edges) {
  std::vector<Pair> pairs;
  pairs.reserve(edges.size());
  for (const potentials::Edge& edge : edges) pairs.emplace_back(edge.a, edge.b);
  return pairs;
}
}  // namespace

Weight SparseSearch::length() const { return std::llround(problem_.length(tours_[0])); }

// What the program is worth, before its numbers are whole; 0 while there is none.
Weight SparseSearch::value_so_far() const {
  if (!program_) return 0;
  return static_cast<Weight>(std::max(0.0, std::min(program_->value(), static_cast<double>(target()))));
}

void SparseSearch::note(std::string_view event, Weight bound) {
  certify::Standing standing{length(), bound};
  for (const int cut : program_->cuts()) {
    (pool_[cut].kind == certify::CutKind::kSubtour ? standing.subtours : standing.combs)++;
  }
  standing.open = 1;
  progress_.show(standing);
  progress_.log(event, standing);
}

// As many steps as there is time for, since how they fall depends on their number.
void SparseSearch::ascend() {
  const certify::TimeLimit& limit = start_.limit;
  potentials::Ascent ascent(problem_, limit.of_processors);
  double steps = kSparse.steps;
  if (clock_.limited()) {
    const double left = sparse_times().kicks * limit.seconds - certify::Clock::since_start(limit);
    steps = std::clamp<double>(ascent.steps_in(left), kSparse.fewest_steps, steps);
  }
  duals_ = ascent.run(static_cast<int>(steps), [](int, double) { return !certify::Clock::signal(); });
  support_ = ascent.support();
}

Tour SparseSearch::looked_for() {
  potentials::TourSearch search;
  search.seed = start_.seed;
  search.kicks = kSparse.kicks_of_node * problem_.nodes();
  search.watch = [&](long kicks, double) {  // the exchanges before the first kick take little time
    return kicks == 0 ? !certify::Clock::signal() : !clock_.over(sparse_times().kicks);
  };
  return potentials::shorten(problem_, potentials::first_tour(problem_), duals_, support_, search).tour;
}

// Whether a pass over the regions shortens the tour.
bool SparseSearch::pass_regions(double part) {
  const bool shorter = passes_->pass([&] { return clock_.over(part); });
  take_tour();
  return shorter;
}

void SparseSearch::take_tour() {
  tours_[0] = passes_->tour();
  progress_.log("tour", length(), value_so_far(), "\"passes\": " + std::to_string(passes_->passes()));
}

// The best tour, and one whose runs are teeth too.
void SparseSearch::find_tours() {
  Tour tour = looked_for();
  const Tour further = tour;
  if (start_.tour && problem_.length(*start_.tour) < problem_.length(tour)) tour = *start_.tour;
  passes_.emplace(problem_, duals_, support_, clock_, tour, start_.seed);
  tours_ = {std::move(tour), further};
  const double part = sparse_times().regions;
  for (int pass = 0; pass < kSparse.passes && !clock_.over(part); pass++) pass_regions(part);
}

// What is left of the time, or passes until they gain nothing.
void SparseSearch::shorten_tour() {
  for (int misses = 0; misses < kSparse.most_misses && !clock_.over() && bound() < target();) {
    misses = pass_regions(1) ? 0 : misses + 1;
  }
}

void SparseSearch::begin_program() {
  program_.emplace(problem_, pool_, tours_[0], clock_);
  for (const Tour& tour : tours_) program_->add_edges(certify::edges_of(tour));
  program_->add_edges(pairs_of(support_));
  program_->add_edges(pairs_of(potentials::light_edges(problem_, duals_, kSparse.light)));
  program_->add_candidates(
      pairs_of(potentials::near_edges(problem_, kSparse.near, kSparse.near_in_quadrant)));
  separation_.emplace(problem_, pool_, *program_, clock_, start_.seed);
  separation_->set_tours(tours_);
  leaf_.emplace(problem_, pool_, program_->average());
  take(leaf_->alone(duals_));  // a program that has little time may be worth less
}

// Takes numbers where they are better.
void SparseSearch::take(Numbers numbers) {
  const Value value = leaf_->value(numbers, program_->edges());
  if (value <= value_) return;
  numbers_ = std::move(numbers);
  value_ = value;
}

// Takes the numbers of the last solution. How many edges of their 1-tree joined.
int SparseSearch::judge() {
  take(leaf_->extract(*program_));
  const int before = program_->columns();
  program_->add_edges(pairs_of(leaf_->tree()));
  return program_->columns() - before;
}

// Where more combs have duals than a file may have, the program goes on without the others: its duals are
// then the best ones for those that stay. Whether there were more.
bool SparseSearch::keep_combs_of_file() {
  std::size_t combs = 0;
  for (std::size_t row = 0; row < program_->cuts().size(); row++) {
    const bool comb = pool_[program_->cuts()[row]].kind == certify::CutKind::kComb;
    combs += comb && program_->cut_dual(row) > 0 ? 1 : 0;
  }
  const std::vector<std::size_t> rows = leaf_->rows_of_file(*program_);
  if (rows.size() == combs) return false;
  program_->keep_combs(rows);
  return true;
}

bool SparseSearch::stalled() const {
  if (values_.size() <= kSparse.window) return false;
  const double gained = values_.back() - values_[values_.size() - 1 - kSparse.window];
  return gained < kSparse.least_gain * (static_cast<double>(target()) - values_.back());
}

// Adds subtours until a solution misses few of them. False where the time is over.
bool SparseSearch::cut_subtours() {
  const auto few = static_cast<int>(kSparse.few_edges_of_node * problem_.nodes());
  while (program_->solve(few)) {
    note("round", value_so_far());
    if (reaches() || separation_->add_subtours() <= separation_->few_subtours()) return true;
  }
  return false;
}

// What a solution is worth before cuts join it: edges and rows that aren't needed are dropped, and edges of
// least 1-trees join.
void SparseSearch::tidy(int round) {
  if (round % kSparse.rounds_of_edges == 0) program_->drop_edges();
  if (round % kSparse.rounds_of_purge == 0) program_->purge(kSparse.slack);
  if (round % kSparse.rounds_of_trees == 0) {
    if (keep_combs_of_file() && !program_->solve()) return;
    judge();
  }
}

// What is tried where cuts stop to help: a shorter tour, whose runs are other teeth; with it larger sets
// where the gap is large, then twice as many climbs.
bool SparseSearch::goes_further() {
  values_.clear();
  passes_->end_beside();
  take_tour();
  passes_->begin_beside();
  program_->add_edges(certify::edges_of(tours_[0]));
  separation_->set_tours(tours_);
  const double gap = static_cast<double>(target()) - program_->value();
  if (!far_ && gap > certify::kCutting.large_gap * static_cast<double>(length())) {
    far_ = true;
    return true;
  }
  return ++level_ <= kSparse.levels;
}

// Whether there are cuts that the last solution hadn't: combs, or a few subtours.
bool SparseSearch::adds_combs() {
  separation_->add_combs(level_, far_);
  return program_->has_new_cuts();
}

// Rounds of cuts until they stop to help.
void SparseSearch::cut() {
  for (int round = 1; cut_subtours() && !reaches(); round++) {
    values_.push_back(program_->value());
    tidy(round);
    for (bool goes_on = !stalled() && adds_combs(); !goes_on; goes_on = adds_combs()) {
      if (!goes_further()) return;
    }
  }
}

// The last solutions, with the combs of the file and edges of least 1-trees.
void SparseSearch::settle() {
  program_->end_at(sparse_times().program);
  keep_combs_of_file();
  for (int k = 0; k < kSparse.trees; k++) {
    const bool solved = program_->solve();
    if (judge() == 0 || !solved || bound() >= target()) return;
  }
}

void SparseSearch::run() {
  ascend();
  find_tours();
  begin_program();
  passes_->begin_beside();
  cut();
  settle();
  passes_->end_beside();
  take_tour();
  shorten_tour();
  note("end", std::max<Weight>(0, bound()));
}
}  // namespace sparse
