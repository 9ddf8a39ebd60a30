#include "potentials/ascent.h"

#include <algorithm>
#include <cmath>
#include <numeric>

#include "points/candidates.h"
#include "running/clock.h"
#include "spanning/exact_tree.h"

namespace potentials {
namespace {
// Candidates of a node. In space the nearest ones of eight octants would be many, and gain nothing.
constexpr int kNearest = 5, kQuadrant = 1, kLight = 6;
constexpr int kNearestInSpace = 6, kOctant = 0, kLightInSpace = 5;
constexpr int kLengthsOf = 4;       // neighbours whose distances are a node's length
constexpr double kFirstStep = 0.3;  // in lengths
constexpr double kKept = 0.9;       // of the last direction
constexpr double kReach = 0.1;      // of the steps of groups
constexpr int kRenewals = 6;
constexpr double kCompletions[] = {0.85, 0.93, 0.98};  // when edges of the exact tree join the candidates
constexpr int kSamples = 16;                           // of trees
constexpr double kNothing = -std::numeric_limits<double>::infinity();

// The size of the last step: the more steps there are, the smaller.
double last_step(int steps) { return std::clamp(0.01 * std::pow(100.0 / steps, 1.5), 1e-5, 0.1); }

int renewals_until(double share) {
  int count = 0;
  while (count < kRenewals && share >= std::pow((count + 0.5) / kRenewals, 2)) count++;
  return count;
}
}  // namespace

Ascent::Ascent(const Problem& problem, bool of_processors)
    : problem_(problem),
      timing_{0, of_processors},
      lengths_(problem.nodes()),
      one_tree_(problem),
      numbers_(problem.nodes(), 0.0),
      speeds_(problem.nodes(), 0.0) {
  measure_lengths();
  near_ =
      in_space() ? near_edges(problem, kNearestInSpace, kOctant) : near_edges(problem, kNearest, kQuadrant);
  const double begin = certify::Clock::since_start(timing_);
  edges_ = joined(near_, light());
  const std::vector<Edge> tree = exact_tree(problem, numbers_, edges_);
  edges_ = joined(edges_, tree);
  search_seconds_ = certify::Clock::since_start(timing_) - begin;
  one_tree_.set_edges(edges_);
  take_exact(tree);
  const double mean = std::accumulate(lengths_.begin(), lengths_.end(), 0.0) / problem.nodes();
  groups_ = groups_of(problem, tree, mean / 4);
  pulls_.resize(groups_.size());
  shifts_.resize(groups_.size());
  pace_.assign(groups_.size(), 0.0);
  squares_.assign(groups_.size(), 1.0);
}

// The mean of the distances to the nearest nodes, at least a twentieth of the mean of all.
void Ascent::measure_lengths() {
  std::vector<Near> found;
  problem_.searches().set_numbers(numbers_);
  for (int i = 0; i < problem_.nodes(); i++) {
    problem_.searches().lightest(i, kLengthsOf, found);
    for (const Near& near : found)
      lengths_[i] += (near.weight - problem_.base()) / static_cast<double>(found.size());
  }
  const double mean = std::accumulate(lengths_.begin(), lengths_.end(), 0.0) / problem_.nodes();
  for (double& length : lengths_) length = std::max({length, mean / 20, 1e-3});
}

bool Ascent::in_space() const { return problem_.matrix() == nullptr && problem_.points().axes == 3; }

std::vector<Edge> Ascent::light() const {
  return light_edges(problem_, numbers_, in_space() ? kLightInSpace : kLight);
}

double Ascent::seconds_for(int steps) {
  constexpr int kTimed = 3;
  const double begin = certify::Clock::since_start(timing_);
  for (int k = 0; k < kTimed; k++) one_tree_.weigh(numbers_, degrees_);
  const double step = (certify::Clock::since_start(timing_) - begin) / kTimed;
  one_tree_.set_edges(edges_);  // what it learned is forgotten, so that timing changes no file
  return step * steps + search_seconds_ * (kRenewals + 2);
}

double Ascent::steps_in(double seconds) {
  const double begin = certify::Clock::since_start(timing_);
  const double none = seconds_for(0);
  const double step = std::max((seconds_for(100) - none) / 100, 1e-9);
  const double timed = certify::Clock::since_start(timing_) - begin;
  return (seconds - timed - none) / step;
}

void Ascent::take_exact(const std::vector<Edge>& tree) {
  const double bound = bound_of(problem_, tree, numbers_);
  if (bound <= bound_exact_) return;
  bound_exact_ = bound;
  best_exact_ = numbers_;
}

// New candidates: often at first, when the numbers change most.
void Ascent::renew(double share) {
  const int due = renewals_until(share);
  if (due == renewed_) return;
  renewed_ = due;
  edges_ = joined(near_, light());
  add_exact();
}

void Ascent::add_exact() {
  const std::vector<Edge> tree = exact_tree(problem_, numbers_, edges_);
  take_exact(tree);
  edges_ = joined(edges_, tree);
  one_tree_.set_edges(edges_);
  bound_ = kNothing;
}

void Ascent::take_best(double bound) {
  if (bound <= bound_) return;
  bound_ = bound;
  best_ = numbers_;
}

void Ascent::sample_tree(int step, int steps) {
  if (2 * step < steps || (step - steps / 2) % std::max(1, steps / (2 * kSamples)) != 0) return;
  std::vector<Edge> tree;
  for (const auto& [a, b] : one_tree_.tree()) tree.push_back(problem_.edge(a, b));
  support_ = joined(std::move(support_), tree);
}

void Ascent::move_nodes(double size) {
  for (int i = 0; i < problem_.nodes(); i++) {
    speeds_[i] = kKept * speeds_[i] + (1 - kKept) * (degrees_[i] - 2);
    numbers_[i] += size * lengths_[i] * speeds_[i];
  }
}

// A group's step is divided by the root mean square of its pulls. It moves the groups in it too.
void Ascent::move_groups(double size) {
  std::fill(pulls_.begin(), pulls_.end(), 0.0);
  for (int i = 0; i < problem_.nodes(); i++) {
    if (groups_.of_node[i] >= 0) pulls_[groups_.of_node[i]] += degrees_[i] - 2;
  }
  for (int g = 0; g < groups_.size(); g++) {
    if (groups_.parents[g] >= 0) pulls_[groups_.parents[g]] += pulls_[g];
  }
  for (int g = groups_.size() - 1; g >= 0; g--) {
    squares_[g] = 0.99 * squares_[g] + 0.01 * pulls_[g] * pulls_[g];
    pace_[g] = kKept * pace_[g] + (1 - kKept) * pulls_[g];
    shifts_[g] = size * kReach * groups_.lengths[g] * pace_[g] / std::sqrt(std::max(squares_[g], 1.0));
    if (groups_.parents[g] >= 0) shifts_[g] += shifts_[groups_.parents[g]];
  }
  for (int i = 0; i < problem_.nodes(); i++) {
    if (groups_.of_node[i] >= 0) numbers_[i] += shifts_[groups_.of_node[i]];
  }
}

std::vector<double> Ascent::run(int steps, const Watch& watch) {
  const double fall = last_step(steps) / kFirstStep;
  for (int step = 0; step < steps; step++) {
    const double share = static_cast<double>(step) / steps;
    renew(share);
    if (completed_ < std::ssize(kCompletions) && share >= kCompletions[completed_]) {
      completed_++;
      add_exact();
    }
    take_best(one_tree_.weigh(numbers_, degrees_));
    sample_tree(step, steps);
    if (!watch(step + 1, bound_)) break;
    if (std::all_of(degrees_.begin(), degrees_.end(), [](int degree) { return degree == 2; })) break;
    const double size = kFirstStep * std::pow(fall, share);
    move_nodes(size);
    move_groups(size * (1 - share));
  }
  if (best_.empty()) return best_exact_;
  numbers_ = best_;
  take_exact(exact_tree(problem_, numbers_, edges_));
  return best_exact_;
}
}  // namespace potentials
