#include "tours/chained_search.h"

#include <algorithm>
#include <cmath>
#include <utility>

namespace potentials {
namespace {
constexpr int kSteps = 2;          // exchanges of three in a chain
constexpr int kBreadth = 8;        // neighbours that are tried for the first added edge
constexpr int kSecondBreadth = 8;  // and for the second one
constexpr int kSpan = 50;          // nodes of a path in a kick
constexpr int kStride = 10;        // nodes from one kick to the next one, in the mean
constexpr int kWindow = 500;       // numbers of nodes to each side of a kick, where it looks for long edges
constexpr int kLooks = 20;         // at nodes there, for one long edge
constexpr double kLong = 4;        // a long edge has as many times the mean length of those that were seen
}  // namespace

std::vector<double> whole_numbers(std::vector<double> numbers) {
  for (double& number : numbers) number = std::round(number * 256) / 256;
  return numbers;
}

ChainedSearch::ChainedSearch(const Problem& problem, const std::vector<double>& numbers,
                             const Neighbours& neighbours, const Tour& tour, std::uint64_t seed)
    : problem_(problem),
      numbers_(numbers),
      near_(neighbours),
      tour_(tour),
      random_(seed),
      queued_(tour.size(), 0) {}

void ChainedSearch::push(int i) {
  if (queued_[i] != 0) return;
  queued_[i] = 1;
  queue_.push_back(i);
}

int ChainedSearch::pop() {
  if (head_ == queue_.size()) {
    queue_.clear();
    head_ = 0;
    return -1;
  }
  const int i = queue_[head_++];
  queued_[i] = 0;
  return i;
}

void ChainedSearch::turn() {
  tour_.turn();
  turned_ = !turned_;
}

void ChainedSearch::reverse(int a, int b) {
  tour_.reverse(a, b);
  log_.push_back({a, b, turned_});
}

void ChainedSearch::undo_to(std::size_t mark) {
  for (; log_.size() > mark; log_.pop_back()) {
    const auto [a, b, turned] = log_.back();
    if (turned == turned_) {
      tour_.reverse(b, a);
    } else {
      tour_.reverse(a, b);
    }
  }
}

// Whether an edge of the tour may be removed: neither fixed nor added by this chain.
bool ChainedSearch::may_go(int a, int b) const {
  if (problem_.is_fixed(a, b)) return false;
  return std::none_of(added_.begin(), added_.end(), [&](const std::pair<int, int>& edge) {
    return edge == std::pair(a, b) || edge == std::pair(b, a);
  });
}

// Keeps an exchange with the most gain before it is closed. True where closing it gains.
bool ChainedSearch::offer(int t1, const Exchange& exchange, Exchange& best, double& closed) const {
  const double gain = exchange.open - cost(exchange.last(), t1);
  if (gain > 1e-9) {
    best = exchange;
    closed = gain;
    return true;
  }
  if (exchange.open > best.open) best = exchange;
  return false;
}

// Looks for an exchange from the edge (t1, t2) on, where t2 comes after t1. `gain` is what was removed less
// what was added.
bool ChainedSearch::search(int t1, int t2, double gain, Exchange& best, double& closed) const {
  const int last = std::min(near_.starts[t2 + 1], near_.starts[t2] + kBreadth);
  for (int k = near_.starts[t2]; k < last; k++) {
    const double open = gain - near_.costs[k];
    if (open <= 0) break;
    const int t3 = near_.nodes[k];
    if (t3 == t1 || t3 == tour_.next(t2)) continue;
    for (const bool ahead : {false, true}) {
      const int t4 = ahead ? tour_.next(t3) : tour_.prev(t3);
      if (!may_go(t3, t4)) continue;
      Exchange exchange{open + cost(t3, t4), Shape::kTwo, t3, t4};
      if (!ahead && offer(t1, exchange, best, closed)) return true;
      exchange.shape = ahead ? Shape::kSwapped : Shape::kInside;
      if (search_third(t1, t2, exchange, best, closed)) return true;
    }
  }
  return false;
}

// Looks for the third edge that goes. Of a two-exchange that would be open its shape is kInside here, else
// kSwapped.
bool ChainedSearch::search_third(int t1, int t2, Exchange exchange, Exchange& best, double& closed) const {
  const bool cycle = exchange.shape == Shape::kSwapped;  // t2 .. t3 is one, once (2, 3) has joined
  const int t3 = exchange.t3;
  const int t4 = exchange.t4;
  const double gain = exchange.open;
  const int last = std::min(near_.starts[t4 + 1], near_.starts[t4] + kSecondBreadth);
  for (int k = near_.starts[t4]; k < last; k++) {
    const double open = gain - near_.costs[k];
    if (open <= 0) break;
    const int t5 = near_.nodes[k];
    exchange.t5 = t5;
    if (t5 == t1 || t5 == t3 || t5 == tour_.next(t4) || t5 == tour_.prev(t4)) continue;
    const bool inside = tour_.between(t2, t5, cycle ? t3 : t4);
    if (cycle && !inside) continue;
    for (const bool ahead : {true, false}) {
      if (cycle ? t5 == (ahead ? t3 : t2) : ahead != inside) continue;
      exchange.t6 = ahead ? tour_.next(t5) : tour_.prev(t5);
      if (!may_go(t5, exchange.t6)) continue;
      exchange.open = open + cost(t5, exchange.t6);
      if (cycle) {
        exchange.shape = ahead ? Shape::kSwapped : Shape::kTurned;
      } else {
        exchange.shape = inside ? Shape::kInside : Shape::kOutside;
      }
      if (offer(t1, exchange, best, closed)) return true;
    }
  }
  return false;
}

// Changes the tour: the path from t2 on is that after the first node.
void ChainedSearch::apply(int t2, const Exchange& exchange) {
  const auto& [open, shape, t3, t4, t5, t6] = exchange;
  switch (shape) {
    case Shape::kTwo:
      return reverse(t2, t4);
    case Shape::kInside:
    case Shape::kOutside:
      reverse(t2, t4);
      return reverse(t4, t6);
    case Shape::kSwapped:  // [t2 .. t5] [t6 .. t3]
      reverse(t2, t3);
      reverse(t3, t6);
      return reverse(t5, t2);
    case Shape::kTurned:  // [t2 .. t6] [t5 .. t3]
      reverse(t2, t6);
      return reverse(t5, t3);
  }
}

// A chain of exchanges that keeps t1. Where none closes with a gain, the tour is as before.
bool ChainedSearch::chain(int t1, int t2) {
  const std::size_t mark = log_.size();
  std::vector<int>& queue = queue_;
  const std::size_t queued = queue.size();
  added_.clear();
  double gain = cost(t1, t2);
  for (int step = 0; step < kSteps; step++) {
    Exchange best;
    double closed = 0;
    const bool found = search(t1, t2, gain, best, closed);
    if (!found && (best.t3 < 0 || step + 1 == kSteps)) break;
    apply(t2, best);
    for (const int node : {t2, best.t3, best.t4, best.t5, best.t6}) {
      if (node >= 0) push(node);
    }
    if (found) {
      push(t1);
      gained_ += closed;
      return true;
    }
    added_.emplace_back(t2, best.t3);
    if (best.shape != Shape::kTwo) added_.emplace_back(best.t4, best.t5);
    t2 = best.last();
    gain = best.open;
  }
  undo_to(mark);
  for (; queue.size() > queued; queue.pop_back()) queued_[queue.back()] = 0;
  return false;
}

bool ChainedSearch::improve_node(int t1) {
  for (int side = 0; side < 2; side++) {
    const int t2 = tour_.next(t1);
    if (!problem_.is_fixed(t1, t2) && chain(t1, t2)) return true;
    turn();
  }
  return false;
}

void ChainedSearch::settle(const std::function<bool()>& watch) {
  int count = 0;
  for (int i = pop(); i >= 0; i = pop()) {
    while (improve_node(i)) continue;
    if (watch && ++count % 256 == 0 && !watch()) return;
  }
}

void ChainedSearch::improve(const std::function<bool()>& watch) {
  if (problem_.nodes() < 8) return;
  for (int i = 0; i < problem_.nodes(); i++) push(i);
  for (int i = pop(), count = 0; i >= 0; i = pop()) {
    while (improve_node(i)) continue;
    total_ += std::exchange(gained_, 0);
    log_.clear();
    if (++count % 256 == 0 && !watch()) return;
  }
}

// Of some edges to the next node, near a place, the longest one: its first node. It is -1 where the longest
// one isn't long, by so many times the mean, or is one of the others.
int ChainedSearch::longest_edge(int place, const std::vector<int>& others, double least) {
  const int nodes = problem_.nodes();
  const int window = std::min(kWindow, nodes / 2);
  int longest = -1;
  double most = 0;
  double sum = 0;
  for (int look = 0; look < kLooks; look++) {
    const int at = (place + random_.below(2 * window + 1) - window + nodes) % nodes;
    const double length = problem_.cost(at, tour_.next(at)) - problem_.base();
    sum += length;
    if (length <= most || std::find(others.begin(), others.end(), at) != others.end()) continue;
    most = length;
    longest = at;
  }
  return most * kLooks < least * sum ? -1 : longest;
}

// Three edges near a place, in the order of the tour, the first of which was a long one; else none.
std::vector<int> ChainedSearch::long_edges(int place) {
  std::vector<int> found;
  for (const double least : {kLong, 0.0, 0.0}) {
    const int node = longest_edge(place, found, least);
    if (node < 0) return {};
    found.push_back(node);
  }
  if (!tour_.between(found[0], found[1], found[2])) std::swap(found[1], found[2]);
  return found;
}

double ChainedSearch::bridge(int p) {
  const std::vector<int> ends = long_edges(p);
  if (!ends.empty()) return swap_paths(ends[0], ends[1], ends[2]);
  const int span = std::min(kSpan, problem_.nodes() / 4);
  const auto walk = [&](int from) {
    for (int k = random_.below(span); k > 0; k--) from = tour_.next(from);
    return from;
  };
  const int b = walk(tour_.next(p));
  return swap_paths(p, b, walk(tour_.next(b)));
}

// p [a .. b] [c .. d] q becomes p [c .. d] [a .. b] q. Returns how much longer the tour is.
double ChainedSearch::swap_paths(int p, int b, int d) {
  const int a = tour_.next(p);
  const int c = tour_.next(b);
  const int q = tour_.next(d);
  for (const auto& [from, to] : {std::pair(p, a), std::pair(b, c), std::pair(d, q)}) {
    if (problem_.is_fixed(from, to)) return 0;
  }
  reverse(a, d);
  reverse(d, c);
  reverse(b, a);
  for (const int node : {p, a, b, c, d, q}) push(node);
  return cost(p, c) + cost(d, a) + cost(b, q) - cost(p, a) - cost(b, c) - cost(d, q);
}

// Numbers of nodes are those of the k-d tree's leaves: a kick is near the one before, whose nodes are in the
// cache.
void ChainedSearch::kick(long count, const std::function<bool(long)>& watch) {
  if (problem_.nodes() < 8) return;
  for (long k = 0; k < count; k++) {
    if (k % 256 == 0 && !watch(k)) return;
    log_.clear();
    gained_ = 0;
    place_ = (place_ + random_.below(2 * kStride + 1)) % problem_.nodes();
    const double more = bridge(place_);
    settle(nullptr);
    if (more - gained_ > 0) {
      undo_to(0);
    } else {
      total_ += gained_ - more;
    }
  }
}
}  // namespace potentials
