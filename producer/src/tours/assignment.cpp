#include "tours/assignment.h"

#include <algorithm>
#include <limits>
#include <utility>

namespace certify {
namespace {
constexpr int kFree = -1;
constexpr int kRounds = 2;
constexpr int kMostSteps = 4;  // of a round, times the number of nodes

class AssignmentSearch {
 public:
  explicit AssignmentSearch(const Matrix& weights)
      : weights_(weights),
        nodes_(weights.nodes()),
        leaving_(nodes_, 0),
        entering_(nodes_, 0),
        before_(nodes_, kFree),
        next_(nodes_, kFree) {
    Weight least = 0;
    Weight most = 0;
    for (int i = 0; i < nodes_; i++) {
      for (int j = 0; j < nodes_; j++) {
        least = std::min(least, weights(i, j));
        most = std::max(most, weights(i, j));
      }
    }
    loop_ = most + (most - least + 1) * nodes_;
  }

  Assignment find() {
    reduce_columns();
    std::vector<int> free = transfer_reductions();
    for (int round = 0; round < kRounds && !free.empty(); round++) free = reduce_rows(free);
    for (const int from : free) augment(from);
    return {next_, leaving_, entering_};
  }

 private:
  Weight price(int from, int to) const { return from == to ? loop_ : weights_(from, to); }
  Weight reduced(int from, int to) const { return price(from, to) - leaving_[from] - entering_[to]; }

  // The least price of entering each node. The arcs that have it are taken where they fit.
  void reduce_columns() {
    std::vector<int> cheapest(nodes_, 0);
    for (int to = 0; to < nodes_; to++) entering_[to] = price(0, to);
    for (int from = 1; from < nodes_; from++) {
      for (int to = 0; to < nodes_; to++) {
        if (price(from, to) >= entering_[to]) continue;
        entering_[to] = price(from, to);
        cheapest[to] = from;
      }
    }
    for (int to = nodes_ - 1; to >= 0; to--) {
      if (next_[cheapest[to]] == kFree) take(cheapest[to], to);
    }
  }

  void take(int from, int to) {
    next_[from] = to;
    before_[to] = from;
  }

  // Moves as much as possible of the dual of each node that is entered to the one that is left. Returns the
  // nodes without a next one.
  std::vector<int> transfer_reductions() {
    std::vector<int> free;
    for (int from = 0; from < nodes_; from++) {
      const int to = next_[from];
      if (to == kFree) {
        free.push_back(from);
        continue;
      }
      Weight least = std::numeric_limits<Weight>::max();
      for (int other = 0; other < nodes_; other++) {
        if (other != to) least = std::min(least, price(from, other) - entering_[other]);
      }
      entering_[to] -= least - (price(from, to) - entering_[to]);
      leaving_[from] = least;
    }
    return free;
  }

  // The two least reduced prices of leaving a node, where its own dual is 0.
  struct Two {
    Weight least = std::numeric_limits<Weight>::max(), second = std::numeric_limits<Weight>::max();
    int first_to = kFree, second_to = kFree;
  };
  Two two_least(int from) const {
    Two two;
    for (int to = 0; to < nodes_; to++) {
      const Weight along = price(from, to) - entering_[to];
      if (along >= two.second) continue;
      if (along < two.least) {
        two.second = std::exchange(two.least, along);
        two.second_to = std::exchange(two.first_to, to);
      } else {
        two.second = along;
        two.second_to = to;
      }
    }
    return two;
  }

  // Each free node takes its cheapest arc, and makes its end dearer by what the second one costs more. The
  // node that had that end before is free again, and the next one as long as ends became dearer.
  std::vector<int> reduce_rows(const std::vector<int>& free) {
    std::vector<int> left;
    int steps = 0;
    for (int from : free) {
      for (; from != kFree; steps++) {
        const Two two = two_least(from);
        const bool dearer = two.least < two.second;
        const int to = dearer || before_[two.first_to] == kFree ? two.first_to : two.second_to;
        entering_[to] -= dearer ? two.second - two.least : 0;
        leaving_[from] = two.second;
        const int displaced = before_[to];
        if (displaced != kFree) next_[displaced] = kFree;
        take(from, to);
        from = displaced;
        if (displaced == kFree || (dearer && steps < kMostSteps * nodes_)) continue;
        left.push_back(displaced);
        from = kFree;
      }
    }
    return left;
  }

  // A shortest path of reduced costs from a node without a next one to a node that no other comes before.
  void augment(int start) {
    std::vector<Weight> distance(nodes_, std::numeric_limits<Weight>::max());
    std::vector<int> from(nodes_, start);
    std::vector<int> reached;
    std::vector<char> done(nodes_, 0);
    int last = start;
    Weight length = 0;
    while (true) {
      int nearest = kFree;
      for (int to = 0; to < nodes_; to++) {
        if (done[to]) continue;
        const Weight along = length + reduced(last, to);
        if (along < distance[to]) {
          distance[to] = along;
          from[to] = last;
        }
        if (nearest == kFree || distance[to] < distance[nearest]) nearest = to;
      }
      done[nearest] = 1;
      reached.push_back(nearest);
      length = distance[nearest];
      if (before_[nearest] == kFree) break;
      last = before_[nearest];
    }
    change_duals(start, reached, distance, length);
    for (int to = reached.back(); to != kFree;) {
      const int node = from[to];
      before_[to] = node;
      std::swap(next_[node], to);
      if (node == start) break;
    }
  }

  void change_duals(int start, const std::vector<int>& reached, const std::vector<Weight>& distance,
                    Weight length) {
    leaving_[start] += length;
    for (const int to : reached) {
      const Weight change = length - distance[to];
      entering_[to] -= change;
      if (before_[to] != kFree) leaving_[before_[to]] += change;
    }
  }

  const Matrix& weights_;
  int nodes_;
  Weight loop_ = 0;  // of an arc from a node to itself
  std::vector<Weight> leaving_, entering_;
  std::vector<int> before_, next_;
};
}  // namespace

Assignment cheapest_assignment(const Matrix& weights) { return AssignmentSearch(weights).find(); }
}  // namespace certify
