// Crosses a tour with AB-cycles, whose edges are of one tour and of another in turn.
// Source: Y. Nagata and S. Kobayashi, A powerful genetic algorithm using edge assembly crossover for
// the traveling salesman problem, INFORMS Journal on Computing 25 (2013).
#pragma once
#include <array>

#include "graphs/tour.h"

namespace certify {
using Links = std::vector<std::array<int, 2>>;  // the two neighbours of each node
using Cycle = std::vector<int>;                 // edges of A and of B in turn, of A first

// Applies AB-cycles to a tour, joins the subtours that come about, and can undo the last one.
class Crossover {
 public:
  Crossover(const Matrix& costs, const Neighbours& near) : costs_(costs), near_(near) {}
  void begin(Links& links, const Tour& order);
  // Applies a cycle. False where it can't be applied; then undo has to be called too.
  bool apply(const Cycle& cycle);
  void undo();
  Weight change() const { return change_; }
  const std::vector<Pair>& removed() const { return removed_; }
  const std::vector<Pair>& added() const { return added_; }

 private:
  struct Change {
    int node, slot, old;
  };
  struct Join {
    Weight change;
    int v, after_v, w, after_w, part;
  };
  void list_edges(const Cycle& cycle);
  int segment_of(int place) const;
  int segment_size(int segment) const;
  int free_end(int node) const;
  bool connect_segments();
  void relink(const Cycle& cycle);
  void set_link(int node, int old, int now);
  void find_subtours();
  bool join_smallest();
  Join best_join(int part) const;
  void consider(int v, int w, Join& best) const;

  const Matrix& costs_;
  const Neighbours& near_;
  Links* links_ = nullptr;
  Tour order_;
  std::vector<int> place_;
  std::vector<Change> log_;
  std::vector<Pair> removed_, added_;
  Weight change_ = 0;
  std::vector<int> cuts_;     // places after which the tour is cut
  std::vector<int> partner_;  // of each end of a segment: 2s is the left one of segment s
  std::vector<int> part_of_;  // the subtour of each segment
  std::vector<int> part_size_;
  std::vector<std::vector<int>> segments_of_;
};

Tour order_of(const Links& links);
}  // namespace certify
