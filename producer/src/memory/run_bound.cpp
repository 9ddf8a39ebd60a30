#include "memory/run_bound.h"

#include <algorithm>
#include <cmath>

#include "memory/memory_parameters.h"
#include "memory/memory_words.h"
#include "routes/route_parameters.h"

namespace certify::routes {
namespace {
// Runs that come to a customer with a load: what they remember, and the least weight of such.
struct State {
  Word word;
  Weight weight;
  auto operator<=>(const State&) const = default;
};

struct Step {
  Weight way, link;  // home by this customer, and to it
  int to;
};

// The states of a load and a customer. Those that came twice are joined at times.
class Cell {
 public:
  std::size_t size() const { return states_.size(); }
  const std::vector<State>& states() const { return states_; }
  // How many states it has more, or fewer.
  std::ptrdiff_t add(const State& state) {
    const auto before = static_cast<std::ptrdiff_t>(states_.size());
    states_.push_back(state);
    if (states_.size() >= full_) join();
    return static_cast<std::ptrdiff_t>(states_.size()) - before;
  }
  // Leaves the least weight of each word.
  void join() {
    std::sort(states_.begin(), states_.end());
    states_.erase(std::unique(states_.begin(), states_.end(),
                              [](const State& a, const State& b) { return a.word == b.word; }),
                  states_.end());
    full_ = std::max(kFew, 2 * states_.size());
  }
  void clear() { std::vector<State>().swap(states_); }
  static constexpr std::size_t kFew = 64;  // of as many states at least, half are different

 private:
  std::vector<State> states_;
  std::size_t full_ = kFew;
};

// All runs from the depot, by the load and the last customer, state by state.
class Spread {
 public:
  Spread(const Loads& loads, const Links<Weight>& links, const WaysHome<Weight>& home,
         const MemoryWords<Weight>& words, Weight ceiling)
      : loads_(loads),
        nodes_(static_cast<int>(loads.of.size())),
        links_(links),
        home_(home),
        words_(words),
        least_(ceiling),
        ceiling_(ceiling),
        cells_(static_cast<std::size_t>(loads.cells())) {}
  // False where there are more states.
  bool run(std::size_t most) {
    for (int v = 1; v < nodes_; v++) {
      if (loads_.of[v] <= loads_.room) offer(loads_.of[v], v, {words_.first(v), links_[v]});
    }
    for (int load = 1; load <= loads_.room; load++) {
      for (int v = 1; v < nodes_; v++) {
        if (!go_on(load, v, most)) return false;
      }
    }
    return true;
  }
  Weight least() const { return least_; }
  std::size_t states() const { return states_; }

 private:
  Cell& at(int load, int v) { return cells_[static_cast<std::size_t>(load) * nodes_ + v]; }
  void offer(int load, int v, const State& state) {
    if (state.weight + home_(loads_.room - load, v) >= ceiling_) return;
    waiting_ += at(load, v).add(state);
  }
  // Whether there are more states even if most of those that wait came twice.
  bool are_more(std::size_t most) const {
    const std::size_t few = cells_.size() * Cell::kFew;
    return states_ > most || states_ + static_cast<std::size_t>(waiting_) > 2 * most + few;
  }
  // The steps from here, those with the lightest ways home first.
  void list_steps(int load, int v) {
    steps_.clear();
    const Weight* const from = &links_[static_cast<std::size_t>(v) * nodes_];
    for (int to = 1; to < nodes_; to++) {
      const int left = loads_.room - load - loads_.of[to];
      if (to != v && left >= 0) steps_.push_back({from[to] + home_(left, to), from[to], to});
    }
    std::sort(steps_.begin(), steps_.end(), [](const Step& a, const Step& b) { return a.way < b.way; });
  }
  bool go_on(int load, int v, std::size_t most) {
    Cell& own = at(load, v);
    if (own.size() == 0) return true;
    waiting_ -= static_cast<std::ptrdiff_t>(own.size());
    own.join();
    states_ += own.size();
    if (are_more(most)) return false;
    list_steps(load, v);
    const Weight back = links_[static_cast<std::size_t>(v) * nodes_];
    for (const State& state : own.states()) {
      least_ = std::min(least_, state.weight + back);
      for (const Step& step : steps_) {
        if (state.weight + step.way >= ceiling_) break;
        if (words_.remembers(v, state.word, step.to)) continue;
        State next = state;
        next.weight += step.link + words_.go_on(v, step.to, next.word);
        offer(load + loads_.of[step.to], step.to, next);
      }
    }
    own.clear();
    return true;
  }

  const Loads& loads_;
  const int nodes_;
  const Links<Weight>& links_;
  const WaysHome<Weight>& home_;
  const MemoryWords<Weight>& words_;
  Weight least_;
  const Weight ceiling_;
  std::vector<Cell> cells_;
  std::vector<Step> steps_;
  std::size_t states_ = 0;
  std::ptrdiff_t waiting_ = 0;  // states of cells to come, some of them twice
};

Weight rounded_down(double number, Weight grid) {
  return static_cast<Weight>(std::floor(number / static_cast<double>(grid))) * grid;
}
}  // namespace

std::optional<Weight> RunBound::least_run(const RunLeaf& numbers, const Memory& memory, Weight ceiling,
                                          std::size_t most_states) {
  const Links<Weight> links = links_under<Weight>(instance_, numbers, scale_);
  home_.fill(links);
  const MemoryWords<Weight> words(memory, numbers.rows);
  Spread spread(loads_, links, home_, words, ceiling);
  const bool all = spread.run(most_states);
  states_ = spread.states();
  return all ? std::optional(spread.least()) : std::nullopt;
}

// The value but for the runs.
Value RunBound::given_back(const RunLeaf& numbers, const std::vector<Limit>& limits) const {
  Value sum = routes::given_back(instance_, numbers, limits);
  for (const auto& [set, multiplier] : numbers.rows) {
    sum -= static_cast<Value>(multiplier) * static_cast<Value>(set.size() / 2);
  }
  return sum;
}

Value RunBound::value(const RunLeaf& numbers, const Memory& memory, const std::vector<Limit>& limits,
                      std::size_t most_states) {
  const Weight depot = 2 * numbers.potentials[0];
  const std::optional<Weight> least = least_run(numbers, memory, depot, most_states);
  if (!least) return kNoValue;
  return static_cast<Value>(instance_.nodes() - 1) * (*least - depot) + given_back(numbers, limits);
}

RunLeaf RunBound::on_grid(const RunDuals& duals, Weight grid) const {
  const auto scale = static_cast<double>(scale_);
  RunLeaf numbers;
  for (const double potential : duals.potentials) {
    numbers.potentials.push_back(-rounded_down(-potential * scale, grid));
  }
  numbers.potentials[0] = 0;
  const auto take = [&](const std::map<NodeSet, double>& from, std::map<NodeSet, Weight>& to, int sign) {
    for (const auto& [set, multiplier] : from) {
      const Weight whole = sign * rounded_down(sign * multiplier * scale, grid);
      if (std::abs(multiplier) > kRouteLeaves.least_multiplier && whole != 0) to[set] = whole;
    }
  };
  take(duals.multipliers, numbers.multipliers, 1);
  take(duals.rows, numbers.rows, -1);
  return numbers;
}

Crossings RunBound::all_crossings(const std::vector<Limit>& limits) const {
  return crossings_under(limited_crossings(instance_, limits), instance_, instance_.customers());
}

// Each run crosses the set of all customers twice. So where its multiplier grows by as much as half of the
// least weight, the least run weighs 0, and no run has to be weighed again.
std::optional<RunBound::Rounded> RunBound::rounded(const RunDuals& duals, const Memory& memory,
                                                   const std::vector<Limit>& limits, Weight grid, Value least,
                                                   std::size_t most_states) {
  const auto ceiling =
      std::max<Weight>(4 * grid, static_cast<Weight>(kRunLeaves.ceiling * static_cast<double>(scale_)));
  Rounded made{on_grid(duals, grid), kNoValue};
  const NodeSet all = instance_.customers();
  const auto known = made.numbers.multipliers.find(all);
  const bool is_low = known == made.numbers.multipliers.end() || known->second >= 0;
  const Crossings crossings = all_crossings(limits);
  const Value most = static_cast<Value>(ceiling / 2) * (is_low ? crossings.low : crossings.high);
  if (given_back(made.numbers, limits) + most < least) return std::nullopt;
  const std::optional<Weight> lightest = least_run(made.numbers, memory, ceiling, most_states);
  if (!lightest) return made;
  const Weight shift = rounded_down(static_cast<double>(*lightest) / 2, grid);
  if (shift != 0) made.numbers.multipliers[all] += shift;
  const Weight above = std::min<Weight>(0, *lightest - 2 * shift);
  made.value = static_cast<Value>(instance_.nodes() - 1) * above + given_back(made.numbers, limits);
  return made;
}
}  // namespace certify::routes
