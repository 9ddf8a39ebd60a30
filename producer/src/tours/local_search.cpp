#include "tours/local_search.h"

#include <utility>

namespace certify {
template <typename Costs>
int LocalSearch<Costs>::beside(int node, int step) const {
  const int nodes = static_cast<int>(tour_.size());
  int place = place_[node] + step;
  if (place < 0) place += nodes;
  return tour_[place >= nodes ? place - nodes : place];
}

// Reverses the places from one on to another, or the rest where that is shorter.
template <typename Costs>
void LocalSearch<Costs>::reverse(int from, int to) {
  const int nodes = static_cast<int>(tour_.size());
  int count = (to - from + nodes) % nodes + 1;
  if (2 * count > nodes) {
    const int first = (to + 1) % nodes;
    to = (from - 1 + nodes) % nodes;
    from = first;
    count = nodes - count;
  }
  for (int k = 0; k < count / 2; k++) {
    std::swap(tour_[from], tour_[to]);
    place_[tour_[from]] = from;
    place_[tour_[to]] = to;
    from = from + 1 == nodes ? 0 : from + 1;
    to = to == 0 ? nodes - 1 : to - 1;
  }
}

// Replaces the edges a b and c d by a c and b d. b follows a as d follows c.
template <typename Costs>
void LocalSearch<Costs>::exchange(int a, int b, int c, int d) {
  if (beside(a, 1) == b && beside(c, 1) == d) {
    reverse(place_[b], place_[c]);
  } else {
    reverse(place_[c], place_[b]);
  }
}

template <typename Costs>
void LocalSearch<Costs>::push(int node) {
  if (queued_[node]) return;
  queued_[node] = 1;
  queue_.push_back(node);
}

template <typename Costs>
bool LocalSearch<Costs>::two_opt(int node, int step) {
  const int next = beside(node, step);
  for (const int other : near_[node]) {
    const Weight gain = costs_(node, next) - costs_(node, other);
    if (gain <= 0) return false;
    const int beyond = beside(other, step);
    if (gain + costs_(other, beyond) - costs_(next, beyond) <= 0) continue;
    exchange(node, next, other, beyond);
    for (const int end : {node, next, other, beyond}) push(end);
    return true;
  }
  return false;
}

// Moves a run {before, first, last, after} between two neighbours, the first node beside the near one.
template <typename Costs>
bool LocalSearch<Costs>::insert(const int (&run)[4], int near, int next, bool reversed) {
  const auto [before, first, last, after] = run;
  if (reversed) {  // before [first .. last] after .. next near
    exchange(before, first, next, near);
    exchange(before, next, after, last);
  } else {  // before [first .. last] after .. near next
    exchange(before, first, last, after);
    exchange(before, last, near, next);
    exchange(before, near, after, first);
  }
  for (const int end : {first, before, last, after, near, next}) push(end);
  return true;
}

// Moves the run of this many nodes from the node on to one of its neighbours.
template <typename Costs>
bool LocalSearch<Costs>::or_opt(int node, int step, int size) {
  const int nodes = static_cast<int>(tour_.size());
  const int before = beside(node, -step);
  const int last = beside(node, step * (size - 1));
  const int after = beside(node, step * size);
  const int run[4] = {before, node, last, after};
  const Weight saved = costs_(before, node) + costs_(last, after) - costs_(before, after);
  if (saved <= 0) return false;
  for (const int near : near_[node]) {
    if (costs_(node, near) >= saved) return false;
    const int ahead = (step * (place_[near] - place_[node]) + nodes) % nodes;
    if (ahead < size) continue;  // in the run
    for (const bool reversed : {true, false}) {
      if (reversed ? near == after : near == before) continue;
      const int next = beside(near, reversed ? -step : step);
      if (saved - costs_(node, near) - costs_(last, next) + costs_(near, next) <= 0) continue;
      return insert(run, near, next, reversed);
    }
  }
  return false;
}

template <typename Costs>
void LocalSearch<Costs>::improve(Tour& tour) {
  const int nodes = static_cast<int>(tour.size());
  if (nodes < 8) return;
  tour_ = std::move(tour);
  for (int k = 0; k < nodes; k++) place_[tour_[k]] = k;
  queue_ = tour_;
  queued_.assign(nodes, 1);
  while (!queue_.empty()) {
    const int node = queue_.back();
    queue_.pop_back();
    queued_[node] = 0;
    bool shorter = true;
    while (shorter) {
      shorter = two_opt(node, 1) || two_opt(node, -1);
      for (int step = 1; step >= -1 && !shorter; step -= 2) {
        for (int size = 1; size <= 3 && !shorter; size++) shorter = or_opt(node, step, size);
      }
    }
  }
  tour = std::move(tour_);
}

template class LocalSearch<Matrix>;
template class LocalSearch<LoweredCosts>;
}  // namespace certify
