#include "sparse/segment_cuts.h"

#include <algorithm>

namespace sparse {
namespace {
using certify::NodeSet;

constexpr double kNever = 1e6;  // more than any set is crossed

// A number at each place, kNever at first. A binary tree, whose leaves are the places, has the least one.
class Places {
 public:
  explicit Places(int places) {
    while (size_ < places) size_ *= 2;
    added_.assign(2 * static_cast<std::size_t>(size_), 0);
    least_.assign(2 * static_cast<std::size_t>(size_), kNever);
  }
  // At this place and at all later ones.
  void add_from(int place, double number) {
    int node = place + size_;
    add(node, number);
    for (; node > 1; node /= 2) {
      if (node % 2 == 0) add(node + 1, number);
      lift(node / 2);
    }
  }
  void add_at(int place, double number) {
    int node = place + size_;
    add(node, number);
    for (node /= 2; node > 0; node /= 2) lift(node);
  }
  double least() const { return least_[1]; }
  // The first place of the least number.
  int place() const {
    int node = 1;
    while (node < size_) node = 2 * node + (least_[2 * node] <= least_[2 * node + 1] ? 0 : 1);
    return node - size_;
  }

 private:
  void add(int node, double number) {
    added_[node] += number;
    least_[node] += number;
  }
  void lift(int node) { least_[node] = added_[node] + std::min(least_[2 * node], least_[2 * node + 1]); }

  int size_ = 1;
  std::vector<double> added_, least_;  // of each node of the tree: to all below it, and below it
};

struct Segment {
  double crossings;
  int first, last;  // places
};

// For each first place the segment that is crossed least, where that is less than this.
std::vector<Segment> list_segments(const certify::Graph& graph, const certify::Tour& tour, double most) {
  const int nodes = static_cast<int>(tour.size());
  std::vector<int> place(tour.size());
  for (int k = 0; k < nodes; k++) place[tour[k]] = k;
  std::vector<Segment> segments;
  Places crossings(nodes);  // of the segments from the first place on, by their last one
  for (int first = nodes - 1; first > 0; first--) {
    crossings.add_at(first, -kNever);
    double all = 0;
    for (const certify::Edge& edge : graph[tour[first]]) {
      all += edge.value;
      if (place[edge.to] > first) crossings.add_from(place[edge.to], -2 * edge.value);
    }
    crossings.add_from(first, all);
    if (crossings.least() < most) segments.push_back({crossings.least(), first, crossings.place()});
  }
  return segments;
}
}  // namespace

std::vector<NodeSet> segment_cuts(const certify::Graph& graph, const certify::Tour& tour,
                                  double least_violation) {
  std::vector<Segment> segments = list_segments(graph, tour, 2 - least_violation);
  std::stable_sort(segments.begin(), segments.end(),
                   [](const Segment& a, const Segment& b) { return a.crossings < b.crossings; });
  std::vector<char> ended(tour.size(), 0);
  std::vector<NodeSet> sets;
  for (const Segment& segment : segments) {
    if (ended[segment.last] != 0) continue;
    ended[segment.last] = 1;
    sets.emplace_back(tour.begin() + segment.first, tour.begin() + segment.last + 1);
  }
  return sets;
}
}  // namespace sparse
