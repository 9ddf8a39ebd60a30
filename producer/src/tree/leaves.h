// The numbers of leaves: duals of the linear program, rounded at the scale, mended by steps along
// exact 1-trees, and kept as the leaf before has them where the bound holds.
// Source: M. Held and R. Karp, The traveling-salesman problem and minimum spanning trees II (1971).
#pragma once
#include "tree/exact_bound.h"

namespace certify {
class Leaves {
 public:
  // The shift is on all potentials, and makes them small. The first solution decides where it isn't known.
  Leaves(ExactBound& bound, const CutPool& pool, bool directed, std::optional<Weight> shift = std::nullopt)
      : bound_(bound), pool_(pool), directed_(directed), shift_(shift) {}
  std::optional<Weight> shift() const { return shift_; }
  // The duals of the solution, as multiples of a grid.
  Numbers extract(const Relaxation& relaxation, Weight grid);
  // Numbers that reach the goal under the decisions. False where none were found.
  bool reach(const Relaxation& relaxation, const std::vector<Decision>& decisions, Weight target,
             Numbers& numbers);
  // The numbers of a leaf that reaches the target, near those of the leaf before.
  Numbers near_last(Numbers numbers, const std::vector<Decision>& decisions, Weight target);
  // Numbers near these that reach the target as multiples of a grid. Nothing where none were found.
  std::optional<Numbers> coarse(const Numbers& numbers, const std::vector<Decision>& decisions, Weight target,
                                Weight grid);
  // Numbers that name none but the marked cuts. By steps from these toward the goal: the first ones that
  // reach it, or else the best ones.
  Numbers restricted(const Numbers& numbers, const Marks& cuts, const std::vector<Decision>& decisions,
                     Value goal, int steps);
  Value goal(Weight target) const { return value_to_reach(target, bound_.scale()); }
  const Numbers& last() const { return last_; }
  void set_last(const Numbers& numbers) { last_ = numbers; }

 private:
  // As many steps at most, by multiples of the grid.
  struct Ascent {
    int tries;
    Weight grid = 1;
  };
  bool ascend(Numbers& numbers, const std::vector<Decision>& decisions, Weight target, const Ascent& ascent);
  bool step(Numbers& numbers, double length_times_square, Weight grid) const;
  Numbers best_toward(Numbers numbers, const std::vector<Decision>& decisions, Value goal, int steps);
  void align(Numbers& numbers) const;
  std::vector<int> differing_places(const Numbers& numbers) const;
  void keep_last(Numbers& numbers, const std::vector<int>& places, std::size_t from, std::size_t to,
                 const std::vector<Decision>& decisions, Value goal, int& budget);
  Weight at(const Numbers& numbers, int place) const;
  void put(Numbers& numbers, int place, Weight number) const;

  ExactBound& bound_;
  const CutPool& pool_;
  const bool directed_;
  std::optional<Weight> shift_;
  Numbers last_;
};
}  // namespace certify
