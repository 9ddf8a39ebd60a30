// Shortens a tour by sequential exchanges of three edges, chained as Lin and Kernighan do, and by local
// kicks.
//
// Sources: S. Lin, B. W. Kernighan, An effective heuristic algorithm for the TSP (1973); K. Helsgaun, An
// effective implementation of the Lin-Kernighan TSP heuristic (2000), for exchanges of three as steps, which
// are judged before the tour is changed, and for costs with potentials; D. Applegate, W. Cook, A. Rohe,
// Chained Lin-Kernighan for large traveling salesman problems (2003), for kicks. Long edges between clusters
// are few, and wrong ones are seldom met by chance, so that kicks look for them.
#pragma once
#include <functional>

#include "running/random.h"
#include "tours/block_tour.h"
#include "tours/greedy.h"

namespace potentials {
class ChainedSearch {
 public:
  // Costs are cost(i, j) + p(i) + p(j) with these numbers, as whole counts of 1/256. The neighbours have to
  // be those of the same numbers, made by `whole_numbers`.
  ChainedSearch(const Problem& problem, const std::vector<double>& numbers, const Neighbours& neighbours,
                const Tour& tour, std::uint64_t seed);

  // Until no exchange shortens the tour. False ends it early.
  void improve(const std::function<bool()>& watch);
  // Two neighbouring paths change places, with exchanges near their ends. It is undone where the tour is
  // longer. The paths are short ones, or end at edges that are long beside those around them.
  void kick(long count, const std::function<bool(long)>& watch);
  Tour order() const { return tour_.order(); }
  // How much shorter the tour is than at first.
  double gain() const { return total_; }

 private:
  // Five nodes after the first one: edges (1, 2), (3, 4) and (5, 6) go, (2, 3), (4, 5) and (6, 1) join.
  enum class Shape { kTwo, kInside, kOutside, kSwapped, kTurned };
  struct Exchange {
    double open = 0;  // the gain before the last edge joins
    Shape shape = Shape::kTwo;
    int t3 = -1, t4 = -1, t5 = -1, t6 = -1;
    int last() const { return shape == Shape::kTwo ? t4 : t6; }
  };
  struct Reversal {
    int a, b;
    bool turned;
  };

  double cost(int i, int j) const { return problem_.cost(i, j) + numbers_[i] + numbers_[j]; }
  void push(int i);
  int pop();
  void turn();
  void reverse(int a, int b);
  void undo_to(std::size_t mark);
  bool improve_node(int t1);
  bool chain(int t1, int t2);
  bool search(int t1, int t2, double gain, Exchange& best, double& closed) const;
  bool search_third(int t1, int t2, Exchange exchange, Exchange& best, double& closed) const;
  bool offer(int t1, const Exchange& exchange, Exchange& best, double& closed) const;
  bool may_go(int a, int b) const;
  void apply(int t2, const Exchange& exchange);
  void settle(const std::function<bool()>& watch);
  double bridge(int p);
  int longest_edge(int place, const std::vector<int>& others, double least);
  std::vector<int> long_edges(int place);
  double swap_paths(int p, int b, int d);

  const Problem& problem_;
  std::vector<double> numbers_;
  const Neighbours& near_;
  BlockTour tour_;
  certify::Random random_;
  double gained_ = 0;  // since the last kick
  double total_ = 0;
  std::vector<int> queue_;
  std::vector<char> queued_;
  std::size_t head_ = 0;
  std::vector<Reversal> log_;               // since the last kick
  std::vector<std::pair<int, int>> added_;  // by the chain
  bool turned_ = false;
  int place_ = 0;  // of the last kick
};

// Numbers as whole counts of 1/256, so that sums of costs are exact.
std::vector<double> whole_numbers(std::vector<double> numbers);
}  // namespace potentials
