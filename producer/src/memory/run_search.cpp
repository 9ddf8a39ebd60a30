#include "memory/run_search.h"

#include <algorithm>
#include <utility>

#include "memory/memory_parameters.h"
#include "running/refusal.h"

namespace certify::routes {
namespace {
constexpr Weight kMostCost = 10000000;  // so that the tolerance of Clp is fine enough
}  // namespace

RunSearch::RunSearch(const CvrpInstance& instance, const Loads& loads, const RouteBegin& begin,
                     const Clock& clock, Progress& progress, const Plan& plan)
    : SetSearch(instance, loads, begin, clock, progress, plan, kRunLeaves.scale),
      most_states_(begin.states.value_or(kMemory.file_states)),
      memory_{std::vector<Bits>(instance.nodes())} {
  if (instance.nodes() > Bits::kMost) throw Refusal("--memory: there are more than 255 customers");
  if (largest_cost(instance) > kMostCost) throw Refusal("--memory: a cost is above 10,000,000");
}

std::string RunSearch::counts() const {
  return R"({"sets": )" + std::to_string(sets_) + R"(, "rows": )" + std::to_string(rows_) +
         R"(}, "walks": )" + std::to_string(runs_) + R"(, "states": )" + std::to_string(states_);
}

void RunSearch::solve_first() {
  const int root = tree_.add_next();
  RunCase first = case_of(root);
  first.whole = true;
  first.start =
      std::make_shared<const RunStart>(RunStart{{}, begin_.met, nearest_memory(instance_, kMemory.near)});
  const auto note = [&](Weight length, Weight bound, const RunProgram& program) {
    sets_ = static_cast<int>(program.sets().size());
    rows_ = static_cast<int>(program.memory().rows.size());
    runs_ = static_cast<int>(program.runs().size());
    log_round(length, bound);
  };
  RunOutcome outcome = own_solver().solve(first, note);
  take(root, outcome);
  look_again(kRunLeaves.large_gap);
}

// What the cases below a branch begin with.
std::shared_ptr<const RunStart> RunSearch::start_below(const RunOutcome& outcome) const {
  if (!begin_.one_memory) return outcome.start;
  auto start = std::make_shared<RunStart>(*outcome.start);
  start->grows = false;
  return start;
}

void RunSearch::go_on(int place, const RunOutcome& outcome) {
  if (outcome.branch && tree_.branches() < plan_.limits.branches) {
    tree_.branch(place, *outcome.branch, start_below(outcome));
  } else {
    tree_.leave(place);
  }
  log("branch", least_bound());
}

// Takes what came of a case, or the numbers from above where these are better.
void RunSearch::take(int place, RunOutcome& outcome) {
  sets_ = outcome.sets;
  rows_ = outcome.rows;
  runs_ = outcome.runs;
  const bool shorter = take_plan(outcome.routes);
  Tree::Place& here = tree_[place];
  if (outcome.done || outcome.value > here.value) {
    here.numbers = std::move(outcome.leaf);
    here.value = outcome.value;
  }
  if (here.value >= aim()) settle(here, limits_of(place));
  if (here.value >= aim()) {
    finish(place);
  } else {
    go_on(place, outcome);
  }
  if (shorter) log("tour", least_bound());
}

// Rounds the duals of an open case, if they aren't yet. Its value is then exact.
void RunSearch::settle(Tree::Place& here, const std::vector<Limit>& limits) {
  if (here.numbers.is_rounded() || here.numbers.is_empty()) return;
  SettledLeaf& leaf = here.numbers;
  auto made = bound_.rounded(leaf.duals, leaf.memory, limits, 1, kNoValue, kMemory.most_states);
  here.value = made->value;
  leaf.numbers = std::move(made->numbers);
  leaf.memory = leaf.memory.with_rows_of(leaf.numbers.rows);
  leaf.states = bound_.states();
}

// Where a shorter plan was found, the duals from above may do.
void RunSearch::finish_reached() {
  while (const std::optional<int> place = tree_.take_reaching(aim())) {
    settle(tree_[*place], limits_of(*place));
    if (tree_[*place].value >= aim()) {
      finish(*place);
    } else {
      tree_.reopen(*place);
    }
  }
}

// A row joins the file's memory. Where a customer would keep too much, the leaf loses the row.
void RunSearch::join_row(SettledLeaf& leaf, const SubsetRow& row) {
  const int place = memory_.place_of(row.set);
  const Bits have = place < 0 ? Bits{} : memory_.rows[place].keepers;
  bool room = true;
  row.keepers.without(have).each([&](int v) { room = room && memory_.kept_at(v) < kMemory.file_bits; });
  if (!room) {
    leaf.numbers.rows.erase(row.set);
    limited_ = true;
  } else if (place < 0) {
    memory_.rows.push_back(row);
  } else {
    memory_.rows[place].keepers = have | row.keepers;
  }
}

void RunSearch::join_memory() {
  memory_ = {std::vector<Bits>(instance_.nodes())};
  const std::vector<int> leaves = tree_.leaves();
  for (const int place : leaves) {
    const Memory& own = tree_[place].numbers.memory;
    for (std::size_t v = 0; v < own.near.size(); v++) {
      const Bits all = memory_.near[v] | own.near[v];
      if (all.count() < kMemory.file_bits / 2) memory_.near[v] = all;
    }
  }
  for (const int place : leaves) {
    SettledLeaf& leaf = tree_[place].numbers;
    for (const SubsetRow& row : leaf.memory.rows) join_row(leaf, row);
  }
}

// What all leaves together charge for each row of the file.
std::map<NodeSet, Weight> RunSearch::charges() const {
  std::map<NodeSet, Weight> sums;
  for (const int place : tree_.leaves()) {
    for (const auto& [set, multiplier] : tree_[place].numbers.numbers.rows) sums[set] += multiplier;
  }
  return sums;
}

void RunSearch::drop_uncharged() { memory_ = memory_.with_rows_of(charges()); }

void RunSearch::drop(const std::set<NodeSet>& rows) {
  std::erase_if(memory_.rows, [&](const SubsetRow& row) { return rows.contains(row.set); });
  for (const int place : tree_.leaves()) {
    for (const NodeSet& set : rows) tree_[place].numbers.numbers.rows.erase(set);
  }
}

// A tenth of the rows that may go, those that are charged least.
std::set<NodeSet> RunSearch::light_rows(const std::function<bool(const NodeSet&)>& may_go) const {
  std::vector<std::pair<Weight, NodeSet>> order;
  for (const auto& [set, sum] : charges()) {
    if (may_go(set)) order.emplace_back(sum, set);
  }
  std::sort(order.begin(), order.end());
  order.resize((order.size() + 9) / 10);
  std::set<NodeSet> rows;
  for (const auto& [sum, set] : order) rows.insert(set);
  return rows;
}

// Whether a leaf has more states by the file's memory than the checker keeps.
bool RunSearch::is_too_large(int place) {
  return bound_.value(tree_[place].numbers.numbers, memory_, limits_of(place), most_states_) == kNoValue;
}

// Whether leaves reach the aim by their own memories, without the rows that they don't charge. Then they do
// by the file's memory too, which has more, and by which they may have many more states.
bool RunSearch::still_reach(const std::vector<int>& places) {
  return std::all_of(places.begin(), places.end(), [&](int place) {
    const SettledLeaf& leaf = tree_[place].numbers;
    const Memory own = leaf.memory.with_rows_of(leaf.numbers.rows);
    return bound_.value(leaf.numbers, own, limits_of(place), most_states_) >= aim();
  });
}

// A leaf keeps states for rows that others charge. Gives up some of them without which those still reach the
// aim. False where all that are left are needed.
bool RunSearch::give_up_spared(int place, std::set<NodeSet>& needed) {
  const auto may_go = [&](const NodeSet& set) {
    return !needed.contains(set) && !tree_[place].numbers.numbers.rows.contains(set);
  };
  for (;;) {
    const std::set<NodeSet> rows = light_rows(may_go);
    if (rows.empty()) return false;
    const Memory before = memory_;
    std::map<int, RunLeaf> numbers_before;
    std::vector<int> reached;
    for (const int other : tree_.leaves()) {
      const RunLeaf& own = tree_[other].numbers.numbers;
      if (std::none_of(rows.begin(), rows.end(), [&](const NodeSet& row) { return own.rows.contains(row); }))
        continue;
      numbers_before[other] = own;
      if (tree_[other].done) reached.push_back(other);
    }
    drop(rows);
    if (still_reach(reached)) return true;
    memory_ = before;
    for (auto& [other, numbers] : numbers_before) tree_[other].numbers.numbers = std::move(numbers);
    needed.insert(rows.begin(), rows.end());
  }
}

// Gives up rows, or customers that are remembered where there are no rows, at the cost of bounds. False where
// nothing is left.
bool RunSearch::give_up() {
  limited_ = true;
  const std::set<NodeSet> rows = light_rows([](const NodeSet&) { return true; });
  drop(rows);
  if (!rows.empty()) return true;
  int most = 0;
  for (const int v : instance_.customers()) most = std::max(most, memory_.kept_at(v));
  if (most > 0) memory_.trim(most - 1, {});
  return most > 0;
}

// Whether something was given up, so that a leaf has no more states than the checker keeps.
bool RunSearch::fit(int place) {
  std::set<NodeSet> needed;
  bool gave = false;
  while (is_too_large(place)) {
    const bool spared = !clock_.over() && give_up_spared(place, needed);
    if (!spared && !give_up()) return gave;
    gave = true;
  }
  return gave;
}

// The checker counts states over all rows of the file, also over those that a leaf doesn't charge. With a row
// less, a leaf that charged it may keep more states: so all are looked at again.
void RunSearch::fit_leaves() {
  drop_uncharged();
  const std::vector<int> leaves = tree_.leaves();
  while (std::count_if(leaves.begin(), leaves.end(), [this](int place) { return fit(place); }) > 0) {
  }
}

// Each trial of a grid goes through the states of a leaf at least. So where these are many, the file stays
// long.
void RunSearch::coarsen() {
  const std::vector<int> leaves = tree_.leaves();
  if (std::any_of(leaves.begin(), leaves.end(),
                  [&](int leaf) { return tree_[leaf].numbers.states > kMemory.most_coarse_states; })) {
    return;
  }
  const auto numbers_of = [&](int place, Weight grid) -> std::optional<SettledLeaf> {
    const SettledLeaf& own = tree_[place].numbers;
    RunDuals duals;
    const auto scale = static_cast<double>(problem_.scale);
    for (const Weight potential : own.numbers.potentials) {
      duals.potentials.push_back(static_cast<double>(potential) / scale);
    }
    for (const auto& [set, multiplier] : own.numbers.multipliers) {
      duals.multipliers[set] = static_cast<double>(multiplier) / scale;
    }
    for (const auto& [set, multiplier] : own.numbers.rows) {
      duals.rows[set] = static_cast<double>(multiplier) / scale;
    }
    auto made = bound_.rounded(duals, memory_, limits_of(place), grid, aim(), most_states_);
    if (!made || made->value < aim()) return std::nullopt;
    SettledLeaf leaf;
    leaf.numbers = std::move(made->numbers);
    return leaf;
  };
  tree_.coarsen(problem_.scale, clock_, numbers_of);
}

void RunSearch::add_rows(const RunLeaf& numbers) {
  auto& multipliers = std::get<Numbers>(made_.certificate().steps.back()).multipliers;
  for (const auto& [set, multiplier] : numbers.rows) {
    const auto [place, fresh] = places_.emplace(set, static_cast<int>(places_.size()));
    multipliers[kFirstRow + place->second] = multiplier;
  }
}

void RunSearch::add_leaf(int place) {
  const RunLeaf& numbers = tree_[place].numbers.numbers;
  made_.add_leaf(numbers);
  add_rows(numbers);
  least_ = std::min(least_, bound_.value(numbers, memory_, limits_of(place), most_states_));
  states_ = std::max(states_, bound_.states());
}

// The memory and the rows, by the nodes of the file.
void RunSearch::list_memory() {
  const auto listed = [&](const Bits& customers) {
    NodeSet nodes;
    customers.each([&](int v) { nodes.push_back(instance_.file_nodes[v] - 1); });
    std::sort(nodes.begin(), nodes.end());
    return nodes;
  };
  Certificate& certificate = made_.certificate();
  for (const int v : instance_.customers()) {
    if (memory_.near[v].count() > 0) {
      certificate.memory[instance_.file_nodes[v] - 1] = listed(memory_.near[v]);
    }
  }
  // One list makes it a file of runs.
  if (certificate.memory.empty()) certificate.memory[instance_.file_nodes[1] - 1] = {};
  certificate.rows.resize(places_.size());
  for (const auto& [set, place] : places_) {
    const SubsetRow& row = memory_.rows[memory_.place_of(set)];
    certificate.rows[place] = {listed(row.inside), listed(row.keepers.without(row.inside))};
  }
}

void RunSearch::run() {
  solve_first();
  solve_cases();
  const std::vector<int> leaves = tree_.leaves();
  reached_ = std::all_of(leaves.begin(), leaves.end(), [this](int leaf) { return tree_[leaf].done; });
  for (const int place : leaves) {
    settle(tree_[place], limits_of(place));
    std::vector<Weight>& potentials = tree_[place].numbers.numbers.potentials;
    if (potentials.empty()) potentials.assign(instance_.nodes(), 0);
  }
  join_memory();
  fit_leaves();
  coarsen();
  drop_uncharged();
  list_tree([this](int place) { add_leaf(place); });
  list_memory();
  log("end", std::min(bound(), goal_.length));
  progress_.clear();
}
}  // namespace certify::routes
