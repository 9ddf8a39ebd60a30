#include "tree/leaves.h"

#include <algorithm>
#include <cmath>
#include <cstdlib>
#include <set>

#include "running/parameters.h"

namespace certify {
namespace {
Weight rounded(double number, Weight grid) {
  return static_cast<Weight>(std::llround(number / static_cast<double>(grid))) * grid;
}
}  // namespace

// The dual of a comb or a family is its multiplier, halved since each crossing counts. Of an ATSP so is that
// of a set, and the potentials are the duals of the arcs that enter: rows take those of the arcs that leave
// by themselves. Of a TSP the dual of a set is given by potentials alone: a tree over the nodes 1.. keeps
// those of sets without node 0 by itself, and a set with node 0 is turned into the other side.
Numbers Leaves::extract(const Relaxation& relaxation, Weight grid) {
  Numbers numbers;
  const int nodes = static_cast<int>(relaxation.support().size());
  const double scale = static_cast<double>(bound_.scale());
  std::vector<double> potentials(nodes);
  for (int v = 0; v < nodes; v++) potentials[v] = -relaxation.entering_dual(v) * scale;
  for (std::size_t row = 0; row < relaxation.cuts().size(); row++) {
    const double dual = relaxation.cut_dual(row) * scale;
    const Cut& cut = pool_[relaxation.cuts()[row]];
    if (cut.kind != CutKind::kSubtour || directed_) {
      const Weight multiplier = rounded(dual / 2, grid);
      if (multiplier <= 0) continue;
      numbers.multipliers[relaxation.cuts()[row]] = multiplier;
      for (const NodeSet& set : cut.sets) {
        for (const int v : set) potentials[v] += static_cast<double>(multiplier);
      }
    } else if (cut.sets[0][0] == 0) {
      for (double& potential : potentials) potential -= dual / 2;
      for (const int v : cut.sets[0]) potentials[v] += dual;
    }
  }
  for (const double potential : potentials) numbers.potentials.push_back(rounded(potential, grid));
  if (!shift_) {  // small numbers make a short file
    std::vector<Weight> sorted = numbers.potentials;
    std::nth_element(sorted.begin(), sorted.begin() + nodes / 2, sorted.end());
    shift_ = sorted[nodes / 2] / kLeaves.largest_grid * kLeaves.largest_grid;
  }
  for (Weight& potential : numbers.potentials) potential -= *shift_;
  return numbers;
}

// One step of subgradient ascent. False where the links are a tour that crosses each cut as often.
bool Leaves::step(Numbers& numbers, double length_times_square, Weight grid) const {
  const std::vector<Pair>& links = bound_.links();
  std::vector<int> degree(numbers.potentials.size(), -2);
  for (const auto& [i, j] : links) {
    degree[i]++;
    degree[j]++;
  }
  double square = 0;
  for (const int d : degree) square += static_cast<double>(d) * d;
  const std::map<int, int> crossings = bound_.crossings();
  std::map<int, int> lacking;
  for (const auto& [cut, multiplier] : numbers.multipliers) {
    const int lack = pool_[cut].crossings - crossings.at(cut);
    lacking[cut] = lack;
    square += static_cast<double>(lack) * lack;
  }
  if (square == 0) return false;
  const double length = std::max(static_cast<double>(grid), length_times_square / square);
  for (std::size_t v = 0; v < degree.size(); v++) numbers.potentials[v] += rounded(length * degree[v], grid);
  for (auto [cut, lack] : lacking) {
    Weight& multiplier = numbers.multipliers[cut];
    multiplier = std::max<Weight>(0, multiplier + rounded(length * lack, grid));
  }
  return true;
}

bool Leaves::ascend(Numbers& numbers, const std::vector<Decision>& decisions, Weight target,
                    const Ascent& ascent) {
  const Value least = goal(target);
  double shrink = 1;
  for (int k = 0; k < ascent.tries; k++, shrink *= 0.97) {
    Value value = bound_.likely_value(numbers, decisions);
    if (value >= least) value = bound_.value(numbers, decisions);
    if (value >= least) return true;
    const double missing = static_cast<double>(least - value) + static_cast<double>(bound_.scale()) / 2;
    if (value == ExactBound::nothing() || !step(numbers, missing * shrink, ascent.grid)) return false;
  }
  return false;
}

bool Leaves::reach(const Relaxation& relaxation, const std::vector<Decision>& decisions, Weight target,
                   Numbers& numbers) {
  const double surplus = relaxation.value() - static_cast<double>(target - 1);
  if (surplus <= kLeaves.least_surplus) return false;
  const double nodes = static_cast<double>(relaxation.support().size());
  Weight grid = 1;
  while (static_cast<double>(grid) * 10 <= surplus * static_cast<double>(bound_.scale()) * 50 / nodes) {
    if (grid >= kLeaves.largest_grid) break;
    grid *= 10;
  }
  for (; grid > 1; grid /= 10) {
    numbers = extract(relaxation, grid);
    if (bound_.reaches(numbers, decisions, goal(target))) return true;
  }
  numbers = extract(relaxation, 1);
  return ascend(numbers, decisions, target,
                {surplus > kLeaves.small_surplus ? kLeaves.steps : kLeaves.many_steps});
}

std::optional<Numbers> Leaves::coarse(const Numbers& numbers, const std::vector<Decision>& decisions,
                                      Weight target, Weight grid) {
  Numbers coarse;
  coarse.potentials.reserve(numbers.potentials.size());
  for (const Weight potential : numbers.potentials) {
    coarse.potentials.push_back(rounded(static_cast<double>(potential), grid));
  }
  for (const auto& [cut, multiplier] : numbers.multipliers) {
    const Weight whole = rounded(static_cast<double>(multiplier), grid);
    if (whole > 0) coarse.multipliers[cut] = whole;
  }
  if (!ascend(coarse, decisions, target, {kLeaves.coarse_steps, grid})) return std::nullopt;
  return coarse;
}

// Steps as those of ascend, by numbers that may never reach the goal.
Numbers Leaves::best_toward(Numbers numbers, const std::vector<Decision>& decisions, Value goal, int steps) {
  Numbers best = numbers;
  Value most = ExactBound::nothing();
  double shrink = 1;
  for (int k = 0;; k++, shrink *= 0.97) {
    Value value = bound_.likely_value(numbers, decisions);
    if (value > most) value = bound_.value(numbers, decisions);
    if (value > most) {
      best = numbers;
      most = value;
    }
    const double missing = static_cast<double>(goal - value) + static_cast<double>(bound_.scale()) / 2;
    if (most >= goal || k == steps || value == ExactBound::nothing()) return best;
    if (!step(numbers, missing * shrink, 1)) return best;
  }
}

// Without a cut the edges that cross its sets cost more. Where potentials become lower instead, those inside
// its sets cost less. Neither way is always the better one.
Numbers Leaves::restricted(const Numbers& numbers, const Marks& cuts, const std::vector<Decision>& decisions,
                           Value goal, int steps) {
  Numbers same{numbers.potentials, {}};
  for (const auto& entry : numbers.multipliers) {
    if (is_marked(cuts, entry.first)) same.multipliers.insert(entry);
  }
  Numbers lower = same;
  for (const auto& [cut, multiplier] : numbers.multipliers) {
    if (is_marked(cuts, cut)) continue;
    for (const NodeSet& set : pool_[cut].sets) {
      for (const int v : set) lower.potentials[v] -= multiplier;
    }
  }
  const bool is_lower = bound_.likely_value(lower, decisions) > bound_.likely_value(same, decisions);
  return best_toward(is_lower ? lower : same, decisions, goal, steps);
}

// A place is a node, or behind the nodes a cut.
Weight Leaves::at(const Numbers& numbers, int place) const {
  const int nodes = static_cast<int>(numbers.potentials.size());
  if (place < nodes) return numbers.potentials[place];
  const auto found = numbers.multipliers.find(place - nodes);
  return found == numbers.multipliers.end() ? 0 : found->second;
}

void Leaves::put(Numbers& numbers, int place, Weight number) const {
  const int nodes = static_cast<int>(numbers.potentials.size());
  if (place < nodes) {
    numbers.potentials[place] = number;
  } else if (number != 0) {
    numbers.multipliers[place - nodes] = number;
  } else {
    numbers.multipliers.erase(place - nodes);
  }
}

std::vector<int> Leaves::differing_places(const Numbers& numbers) const {
  const int nodes = static_cast<int>(numbers.potentials.size());
  std::set<int> places;
  for (int v = 0; v < nodes; v++) places.insert(v);
  for (const Numbers* each : {&numbers, &last_}) {
    for (const auto& [cut, multiplier] : each->multipliers) places.insert(nodes + cut);
  }
  std::vector<std::pair<Weight, int>> differing;
  for (const int place : places) {
    const Weight difference = std::abs(at(numbers, place) - at(last_, place));
    if (difference > 0) differing.emplace_back(difference, place);
  }
  std::sort(differing.begin(), differing.end());
  std::vector<int> sorted;
  sorted.reserve(differing.size());
  for (const auto& [difference, place] : differing) sorted.push_back(place);
  return sorted;
}

// Gives these places the numbers of the last leaf where the goal seems to be reached still, else halves of
// them.
void Leaves::keep_last(Numbers& numbers, const std::vector<int>& places, std::size_t from, std::size_t to,
                       const std::vector<Decision>& decisions, Value goal, int& budget) {
  if (from >= to || budget <= 0) return;
  Numbers trial = numbers;
  for (std::size_t k = from; k < to; k++) put(trial, places[k], at(last_, places[k]));
  budget--;
  if (bound_.likely_value(trial, decisions) >= goal) {
    numbers = std::move(trial);
  } else if (to - from > 4) {
    const std::size_t middle = (from + to) / 2;
    keep_last(numbers, places, from, middle, decisions, goal, budget);
    keep_last(numbers, places, middle, to, decisions, goal, budget);
  }
}

// All potentials may change alike, which leaves the bound as it is: by the median of the differences, most of
// which are then short.
void Leaves::align(Numbers& numbers) const {
  std::vector<Weight> differences;
  differences.reserve(numbers.potentials.size());
  for (std::size_t v = 0; v < numbers.potentials.size(); v++) {
    differences.push_back(numbers.potentials[v] - last_.potentials[v]);
  }
  const auto middle = differences.begin() + static_cast<std::ptrdiff_t>(differences.size() / 2);
  std::nth_element(differences.begin(), middle, differences.end());
  for (Weight& potential : numbers.potentials) potential -= *middle;
}

Numbers Leaves::near_last(Numbers numbers, const std::vector<Decision>& decisions, Weight target) {
  if (last_.potentials.empty()) return numbers;
  const Value least = goal(target);
  if (bound_.reaches(last_, decisions, least)) return last_;
  align(numbers);
  const std::vector<int> places = differing_places(numbers);
  for (int k = 0; k < kLeaves.checks; k++) {
    Numbers near = numbers;
    int budget = kLeaves.trials;
    keep_last(near, places, 0, places.size(), decisions, least, budget);
    if (bound_.value(near, decisions) >= least) return near;
  }
  return numbers;
}
}  // namespace certify
