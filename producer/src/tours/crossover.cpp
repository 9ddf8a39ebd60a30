#include "tours/crossover.h"

#include <algorithm>
#include <limits>
#include <numeric>

namespace certify {
namespace {
constexpr Weight kNone = std::numeric_limits<Weight>::max();
}  // namespace

Tour order_of(const Links& links) {
  Tour tour(links.size());
  int before = -1, node = 0;
  for (std::size_t k = 0; k < links.size(); k++) {
    tour[k] = node;
    const int next = k == 0 || links[node][0] != before ? links[node][0] : links[node][1];
    before = node;
    node = next;
  }
  return tour;
}

void Crossover::begin(Links& links, const Tour& order) {
  links_ = &links;
  order_ = order;
  place_.resize(order.size());
  for (std::size_t k = 0; k < order.size(); k++) place_[order[k]] = static_cast<int>(k);
}

// The edges that the cycle removes and adds, and the places where the tour is cut.
void Crossover::list_edges(const Cycle& cycle) {
  const std::size_t size = cycle.size();
  const int nodes = static_cast<int>(order_.size());
  removed_.clear();
  added_.clear();
  cuts_.clear();
  log_.clear();
  change_ = 0;
  for (std::size_t k = 0; k < size; k += 2) {
    const int u = cycle[k], v = cycle[k + 1], w = cycle[k + 2 == size ? 0 : k + 2];
    removed_.push_back(std::minmax(u, v));
    added_.push_back(std::minmax(v, w));
    change_ += costs_(v, w) - costs_(u, v);
    cuts_.push_back((place_[u] + 1) % nodes == place_[v] ? place_[u] : place_[v]);
  }
  std::sort(cuts_.begin(), cuts_.end());
}

int Crossover::segment_of(int place) const {
  const auto k = std::lower_bound(cuts_.begin(), cuts_.end(), place) - cuts_.begin();
  return static_cast<int>(k == 0 ? cuts_.size() : static_cast<std::size_t>(k)) - 1;
}

int Crossover::segment_size(int segment) const {
  const int size = cuts_[(segment + 1) % cuts_.size()] - cuts_[segment];
  return size <= 0 ? size + static_cast<int>(order_.size()) : size;
}

// An end of a segment that is this node and has no partner yet, or -1.
int Crossover::free_end(int node) const {
  const int s = segment_of(place_[node]);
  if (order_[(cuts_[s] + 1) % order_.size()] == node && partner_[2 * s] == -1) return 2 * s;
  if (order_[cuts_[(s + 1) % cuts_.size()]] == node && partner_[2 * s + 1] == -1) return 2 * s + 1;
  return -1;
}

bool Crossover::connect_segments() {
  partner_.assign(2 * cuts_.size(), -1);
  for (auto [v, w] : added_) {
    const int a = free_end(v);
    if (a < 0) return false;
    partner_[a] = -2;
    const int b = free_end(w);
    if (b < 0) return false;
    partner_[a] = b;
    partner_[b] = a;
  }
  return true;
}

void Crossover::set_link(int node, int old, int now) {
  auto& link = (*links_)[node];
  const int slot = link[0] == old ? 0 : 1;
  log_.push_back({node, slot, link[slot]});
  link[slot] = now;
}

// Each node of the cycle loses its edge of A and gets its edge of B. New links are negative at first,
// so that a node that comes twice doesn't lose them.
void Crossover::relink(const Cycle& cycle) {
  const std::size_t size = cycle.size();
  for (std::size_t k = 0; k < size; k++) {
    const int after = cycle[k + 1 == size ? 0 : k + 1], before = cycle[k == 0 ? size - 1 : k - 1];
    const bool even = k % 2 == 0;
    set_link(cycle[k], even ? after : before, -1 - (even ? before : after));
  }
  for (const int v : cycle) {
    for (int& to : (*links_)[v]) {
      if (to < 0) to = -1 - to;
    }
  }
}

void Crossover::find_subtours() {
  const std::size_t count = cuts_.size();
  part_of_.assign(count, -1);
  part_size_.clear();
  segments_of_.clear();
  for (std::size_t s = 0; s < count; s++) {
    if (part_of_[s] >= 0) continue;
    const int part = static_cast<int>(part_size_.size());
    part_size_.push_back(0);
    segments_of_.emplace_back();
    int segment = static_cast<int>(s), entered = 0;
    while (part_of_[segment] < 0) {
      part_of_[segment] = part;
      segments_of_[part].push_back(segment);
      part_size_[part] += segment_size(segment);
      const int to = partner_[2 * segment + 1 - entered];
      segment = to / 2;
      entered = to % 2;
    }
  }
}

// The four ways to replace an edge at v and one at w by two edges between their subtours.
void Crossover::consider(int v, int w, Join& best) const {
  for (const int after_v : (*links_)[v]) {
    for (const int after_w : (*links_)[w]) {
      const Weight change = costs_(v, w) + costs_(after_v, after_w) - costs_(v, after_v) - costs_(w, after_w);
      if (change < best.change) best = {change, v, after_v, w, after_w, -1};
    }
  }
}

Crossover::Join Crossover::best_join(int part) const {
  Join best{kNone, -1, -1, -1, -1, -1};
  for (const int segment : segments_of_[part]) {
    const int size = segment_size(segment);
    for (int k = 1; k <= size; k++) {
      const int v = order_[(cuts_[segment] + k) % order_.size()];
      for (const int w : near_[v]) {
        const int other = part_of_[segment_of(place_[w])];
        if (other == part) continue;
        const Weight before = best.change;
        consider(v, w, best);
        if (best.change < before) best.part = other;
      }
    }
  }
  return best;
}

// Joins the smallest subtour to another one. False where no neighbour is in another one.
bool Crossover::join_smallest() {
  int part = -1;
  for (std::size_t k = 0; k < part_size_.size(); k++) {
    if (part_size_[k] > 0 && (part < 0 || part_size_[k] < part_size_[part])) part = static_cast<int>(k);
  }
  const Join join = best_join(part);
  if (join.v < 0) return false;
  change_ += join.change;
  set_link(join.v, join.after_v, join.w);
  set_link(join.w, join.after_w, join.v);
  set_link(join.after_v, join.v, join.after_w);
  set_link(join.after_w, join.w, join.after_v);
  removed_.push_back(std::minmax(join.v, join.after_v));
  removed_.push_back(std::minmax(join.w, join.after_w));
  added_.push_back(std::minmax(join.v, join.w));
  added_.push_back(std::minmax(join.after_v, join.after_w));
  for (const int segment : segments_of_[part]) {
    part_of_[segment] = join.part;
    segments_of_[join.part].push_back(segment);
  }
  part_size_[join.part] += part_size_[part];
  part_size_[part] = 0;
  segments_of_[part].clear();
  return true;
}

bool Crossover::apply(const Cycle& cycle) {
  list_edges(cycle);
  if (!connect_segments()) return false;
  relink(cycle);
  find_subtours();
  for (std::size_t left = part_size_.size(); left > 1; left--) {
    if (!join_smallest()) return false;
  }
  return true;
}

void Crossover::undo() {
  for (; !log_.empty(); log_.pop_back()) {
    const Change& change = log_.back();
    (*links_)[change.node][change.slot] = change.old;
  }
}
}  // namespace certify
