// Finds a tour by a population that is crossed by edge assembly, one AB-cycle at a time, with
// selection by entropy.
// Source: Y. Nagata and S. Kobayashi, A powerful genetic algorithm using edge assembly crossover for
// the traveling salesman problem, INFORMS Journal on Computing 25 (2013).
#pragma once
#include <functional>

#include "reading/instance.h"
#include "running/random.h"
#include "tours/crossover.h"
#include "tours/fixed_paths.h"

namespace certify {
class Eax {
 public:
  // The fixed pairs are paths that each tour keeps; their costs have to be low.
  Eax(const Matrix& costs, const Instance& instance, int population, std::uint64_t seed);
  // Ends where nothing gets better, or where stop says so.
  Tour run(const std::function<bool()>& stop, const std::function<void(Weight)>& show);
  // The same with a population of these two alone, which takes what is better in each of them.
  Tour merge(const Tour& one, const Tour& other, const std::function<bool()>& stop);
  const std::vector<Tour>& snapshots() const { return snapshots_; }
  std::vector<Pair> edges() const;

 private:
  // The best child of two members, as a change of the first one.
  struct Child {
    Links links;
    Weight change = 0;
    std::vector<Pair> removed, added;
  };
  Tour random_tour();
  void add_member(const Tour& tour);
  void add_members(const std::function<bool()>& stop);
  Child cross(int a, int b, Random random) const;
  void cross_all(const std::vector<int>& order, const std::function<bool()>& stop);
  double entropy_change(const Crossover& crossover) const;
  void count_edges(const std::vector<Pair>& edges, int by);
  void keep_snapshots();
  std::uint16_t& frequency(const Pair& edge) {
    return frequency_[static_cast<std::size_t>(edge.first) * costs_.nodes() + edge.second];
  }
  std::uint16_t frequency(const Pair& edge) const {
    return frequency_[static_cast<std::size_t>(edge.first) * costs_.nodes() + edge.second];
  }

  const Matrix& costs_;
  std::vector<std::vector<int>> paths_;  // of fixed pairs, and the other nodes alone
  int population_;
  Random random_;
  Neighbours near_;
  std::vector<Links> members_;
  std::vector<Weight> lengths_;
  std::vector<std::uint16_t> frequency_;  // of each edge in the population, the smaller node first
  std::vector<Tour> snapshots_;
};
}  // namespace certify
