// The exact bound of a leaf by runs: all states that could end below 0, without dominance.
//
// It counts the states as the checker does, which has a limit of them.
#pragma once
#include "memory/memory_words.h"
#include "memory/ways_home.h"

namespace certify::routes {
// The best duals of a case, or their whole numbers if they were rounded, with the memory that they are for.
struct SettledLeaf {
  RunDuals duals{};
  RunLeaf numbers{};
  Memory memory{};
  std::size_t states = 0;  // of the rounded numbers with this memory
  bool is_empty() const { return duals.potentials.empty() && numbers.potentials.empty(); }
  bool is_rounded() const { return !numbers.potentials.empty(); }
};

class RunBound {
 public:
  RunBound(const CvrpInstance& instance, const Loads& loads, Weight scale)
      : instance_(instance), loads_(loads), scale_(scale), home_(loads_) {}
  Weight scale() const { return scale_; }
  Weight bound_of(Value value) const { return rounded_up(value, scale_); }
  // The bound times the scale: very low where there are more states than this.
  Value value(const RunLeaf& numbers, const Memory& memory, const std::vector<Limit>& limits,
              std::size_t most_states);
  // Duals as multiples of a grid, and their value: weights are rounded up, and then the multiplier of all
  // customers takes what the least run weighs above 0, or below. Nothing where the value is surely below the
  // least one. The value is very low where there are too many states.
  struct Rounded {
    RunLeaf numbers;
    Value value;
  };
  std::optional<Rounded> rounded(const RunDuals& duals, const Memory& memory,
                                 const std::vector<Limit>& limits, Weight grid, Value least,
                                 std::size_t most_states);
  // The states of the last call.
  std::size_t states() const { return states_; }
  // The least weight of a run, if it is below the ceiling, else that. Nothing where there are too many
  // states.
  std::optional<Weight> least_run(const RunLeaf& numbers, const Memory& memory, Weight ceiling,
                                  std::size_t most_states);

 private:
  RunLeaf on_grid(const RunDuals& duals, Weight grid) const;
  Crossings all_crossings(const std::vector<Limit>& limits) const;
  Value given_back(const RunLeaf& numbers, const std::vector<Limit>& limits) const;

  const CvrpInstance& instance_;
  const Loads& loads_;
  const Weight scale_;
  WaysHome<Weight> home_;
  std::size_t states_ = 0;
};
}  // namespace certify::routes
