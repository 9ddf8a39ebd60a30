// Runs with a memory: payments, words, labels and exact bounds, against results by hand and by trying all
// cases.
#include "memory/memory.h"

#include <algorithm>
#include <bit>
#include <cmath>
#include <set>

#include "fixtures.h"
#include "memory/label_search.h"
#include "memory/memory_words.h"
#include "memory/run_bound.h"
#include "memory_fixtures.h"
#include "running/refusal.h"

using namespace certify;
using namespace certify::routes;

namespace {
// Costs of each direction, demands from 1 to 5, any lists, and rows of two to four customers.
struct Sample {
  CvrpInstance instance;
  Memory memory;
  std::map<NodeSet, Weight> rows{};
};

CvrpInstance any_instance(int nodes, Random& random) {
  CvrpInstance instance{Matrix(nodes), {0}, 5 + random.below(4), {}, false};
  for (int v = 0; v < nodes; v++) {
    instance.file_nodes.push_back(v + 1);
    if (v > 0) instance.demands.push_back(1 + random.below(5));
    for (int j = 0; j < nodes; j++) {
      if (j != v) instance.costs.set_arc(v, j, random.below(40) - 5);
    }
  }
  return instance;
}

Sample sample(int nodes, Random& random) {
  Sample sample{any_instance(nodes, random), {std::vector<Bits>(nodes)}};
  for (int v = 1; v < nodes; v++) {
    for (int u = 1; u < nodes; u++) {
      if (u != v && random.below(3) == 0) sample.memory.near[v].add(u);
    }
  }
  for (int k = 0; k < 3; k++) {
    NodeSet set = sample.instance.customers();
    random.shuffle(set);
    set.resize(std::min<std::size_t>(set.size(), 2 + random.below(3)));
    std::sort(set.begin(), set.end());
    if (set.size() < 2 || sample.memory.place_of(set) >= 0) continue;
    SubsetRow row = row_of(set);
    for (int v = 1; v < nodes; v++) {
      if (random.below(2) == 0) row.keepers.add(v);
    }
    sample.memory.rows.push_back(row);
    sample.rows[set] = random.below(12);
  }
  return sample;
}

Weight weight_of(const Sample& sample, const Links<Weight>& links, const Route& run) {
  const int nodes = sample.instance.nodes();
  Weight sum = 0;
  int last = 0;
  for (const int v : run) {
    sum += links[static_cast<std::size_t>(last * nodes + v)];
    last = v;
  }
  for (const SubsetRow& row : sample.memory.rows) sum += sample.rows.at(row.set) * payments(row, run);
  return sum + links[static_cast<std::size_t>(last * nodes)];
}

// take(run) for each run, by going on from each in turn.
template <class Take>
void each_run(const Sample& sample, const Loads& loads, Route& run, int load, const Take& take) {
  if (!run.empty()) take(run);
  for (const int v : sample.instance.customers()) {
    if (load + loads.of[v] > loads.room) continue;
    run.push_back(v);
    if (is_run(sample.memory, run)) each_run(sample, loads, run, load + loads.of[v], take);
    run.pop_back();
  }
}
}  // namespace

TEST_CASE("Bits are sets of whole numbers") {
  Bits a, b;
  for (const int k : {0, 63, 64, 200, 255}) a.add(k);
  for (const int k : {63, 200}) b.add(k);
  CHECK(listed(a) == NodeSet{0, 63, 64, 200, 255});
  CHECK(listed(a & b) == NodeSet{63, 200});
  CHECK(listed(a.without(b)) == NodeSet{0, 64, 255});
  CHECK(a.count() == 5);
  CHECK(b.is_within(a));
  CHECK_FALSE(a.is_within(b));
  CHECK(a.has(255));
  CHECK_FALSE(a.has(254));
}

TEST_CASE("A row is paid for by each second customer of its set, unless it is forgotten between") {
  SubsetRow row = row_of({1, 2, 3});
  CHECK(row.half() == 1);
  CHECK(payments(row, {1, 2}) == 1);
  CHECK(payments(row, {1, 2, 3}) == 1);
  CHECK(payments(row, {1, 2, 3, 1}) == 2);
  CHECK(payments(row, {1, 4, 2}) == 0);
  CHECK(payments(row, {4, 3}) == 0);
  row.keepers.add(4);
  CHECK(payments(row, {1, 4, 2}) == 1);
  CHECK(payments(row, {1, 4, 5, 2}) == 0);
  CHECK(row_of({1, 2, 3, 4}).half() == 2);
}

TEST_CASE("A run doesn't go to a customer that its last one remembers") {
  Memory memory{std::vector<Bits>(5)};
  CHECK(is_run(memory, {1, 2, 1}));
  CHECK_FALSE(is_run(memory, {1, 1}));
  memory.near[2].add(1);
  CHECK_FALSE(is_run(memory, {1, 2, 1}));
  CHECK(is_run(memory, {1, 2, 3, 1}));  // 3 forgets it
  memory.near[3].add(1);
  CHECK_FALSE(is_run(memory, {1, 2, 3, 1}));
  CHECK(is_run(memory, {1, 4, 3, 1}));  // 4 has forgotten it
}

TEST_CASE("Words say what runs remember and pay, whatever bits customers have") {
  for (int seed = 0; seed < 60; seed++) {
    Random random(seed);
    const Sample one = sample(3 + seed % 4, random);
    const auto loads = loads_in(one.instance, 1);
    const MemoryWords<Weight> words(one.memory, one.rows);
    Route all;
    each_run(one, *loads, all, 0, [&](const Route& run) {
      Word word = words.first(run[0]);
      Weight paid = 0, wanted = 0;
      for (std::size_t k = 1; k < run.size(); k++) {
        REQUIRE_FALSE(words.remembers(run[k - 1], word, run[k]));
        paid += words.go_on(run[k - 1], run[k], word);
      }
      for (const SubsetRow& row : one.memory.rows) wanted += one.rows.at(row.set) * payments(row, run);
      CHECK(paid == wanted);
      for (const int v : one.instance.customers()) {
        Route longer(run);
        longer.push_back(v);
        if (v != run.back()) CHECK(words.remembers(run.back(), word, v) != is_run(one.memory, longer));
      }
    });
  }
}

// 5 keeps the row.
TEST_CASE("A row without a multiplier costs nothing, but parts states") {
  Memory memory{std::vector<Bits>(6), {row_of({1, 2, 3})}};
  memory.rows[0].keepers.add(5);
  const MemoryWords<Weight> words(memory, {});
  Word word = words.first(1);
  CHECK(std::popcount(word) == 1);
  CHECK(words.first(4) == 0);
  CHECK(words.go_on(1, 5, word) == 0);
  CHECK(std::popcount(word) == 1);
  CHECK(words.go_on(5, 2, word) == 0);
  CHECK(word == 0);
  const Memory without = memory.with_rows_of(std::map<NodeSet, Weight>{});
  CHECK(MemoryWords<Weight>(without, {}).first(1) == 0);
}

TEST_CASE("A customer that keeps more than a word has bits is refused") {
  Memory memory{std::vector<Bits>(80)};
  for (int v = 2; v < 66; v++) memory.near[1].add(v);
  CHECK_NOTHROW(MemoryWords<Weight>(memory, {}));
  memory.rows.push_back(row_of({1, 2}));
  CHECK_THROWS_AS(MemoryWords<Weight>(memory, {}), Refusal);
}

TEST_CASE("The least run by labels and by states is that of all runs") {
  for (int seed = 0; seed < 60; seed++) {
    Random random(seed);
    const Sample one = sample(3 + seed % 4, random);
    const int nodes = one.instance.nodes();
    const auto loads = loads_in(one.instance, 1);
    REQUIRE(loads);
    RunLeaf numbers;
    for (int v = 0; v < nodes; v++) numbers.potentials.push_back(v == 0 ? 0 : -random.below(25));
    numbers.multipliers[one.instance.customers()] = random.below(9) - 4;
    numbers.rows = one.rows;
    const Links<Weight> links = links_under<Weight>(one.instance, numbers, 1);
    Weight least = 1000;
    Route run;
    each_run(one, *loads, run, 0,
             [&](const Route& all) { least = std::min(least, weight_of(one, links, all)); });
    RunBound bound(one.instance, *loads, 1);
    CHECK(bound.least_run(numbers, one.memory, 1000, 1000000) == least);
    least = std::min<Weight>(least, 0);
    CHECK(bound.least_run(numbers, one.memory, 0, 1000000) == least);
    LabelSearch labels(one.instance, *loads);
    RunDuals duals;
    duals.potentials.assign(numbers.potentials.begin(), numbers.potentials.end());
    for (const auto& [set, multiplier] : numbers.multipliers)
      duals.multipliers[set] = static_cast<double>(multiplier);
    for (const auto& [set, multiplier] : numbers.rows) duals.rows[set] = static_cast<double>(multiplier);
    const MemoryWords<double> words(one.memory, duals.rows);
    const LabelSearch::Found found = labels.find(links_under<double>(one.instance, duals, 1), words, {}, 50);
    CHECK(found.whole);
    CHECK(is_near(found.least, static_cast<double>(least)));
    for (const Route& light : found.runs) {
      CHECK(is_run(one.memory, light));
      CHECK(weight_of(one, links, light) < 0);
    }
    const LabelSearch::Found few =
        labels.find(links_under<double>(one.instance, duals, 1), words, {1, 2}, 50);
    CHECK(few.least >= found.least - 1e-6);
  }
}

// By docs/format.md, with nothing left out: a state has all customers that are remembered, and the parities
// of all rows. A start is kept if after each of its customers the lightest way home ends below 0.
namespace {
struct PlainState {
  int load, last;
  Bits known, open;
  auto operator<=>(const PlainState&) const = default;
};

Weight way_home(const Sample& sample, const Loads& loads, const Links<Weight>& links, int load, int v) {
  const int nodes = sample.instance.nodes();
  Weight least = links[static_cast<std::size_t>(v * nodes)];
  for (const int to : sample.instance.customers()) {
    const int sum = load + loads.of[to];
    if (to == v || sum > loads.room) continue;
    least = std::min(
        least, links[static_cast<std::size_t>(v * nodes + to)] + way_home(sample, loads, links, sum, to));
  }
  return least;
}

PlainState next_state(const Sample& sample, const Loads& loads, const PlainState& from, int to) {
  PlainState next{from.load + loads.of[to], to, from.known, {}};
  next.known.add(from.last);
  next.known = next.known & sample.memory.near[to];
  for (int k = 0; k < static_cast<int>(sample.memory.rows.size()); k++) {
    const SubsetRow& row = sample.memory.rows[k];
    if (row.keepers.has(to) && from.open.has(k) != row.inside.has(to)) next.open.add(k);
  }
  return next;
}

Weight paid(const Sample& sample, const PlainState& from, int to) {
  Weight sum = 0;
  for (int k = 0; k < static_cast<int>(sample.memory.rows.size()); k++) {
    const SubsetRow& row = sample.memory.rows[k];
    if (from.open.has(k) && row.inside.has(to)) sum += sample.rows.at(row.set);
  }
  return sum;
}

void keep(const Sample& sample, const Loads& loads, const Links<Weight>& links, const PlainState& state,
          Weight weight, std::set<PlainState>& kept) {
  if (weight + way_home(sample, loads, links, state.load, state.last) >= 0) return;
  kept.insert(state);
  for (const int to : sample.instance.customers()) {
    if (to == state.last || state.known.has(to) || state.load + loads.of[to] > loads.room) continue;
    const Weight link = links[static_cast<std::size_t>(state.last * sample.instance.nodes() + to)];
    keep(sample, loads, links, next_state(sample, loads, state, to), weight + link + paid(sample, state, to),
         kept);
  }
}
}  // namespace

TEST_CASE("States are those that the checker counts, over all rows of the memory") {
  std::size_t most = 0;
  bool free_row_parts = false;
  for (int seed = 0; seed < 60; seed++) {
    Random random(seed);
    const Sample one = sample(3 + seed % 4, random);
    const auto loads = loads_in(one.instance, 1);
    REQUIRE(loads);
    RunLeaf numbers;
    for (int v = 0; v < one.instance.nodes(); v++)
      numbers.potentials.push_back(v == 0 ? 0 : -random.below(25));
    for (const auto& [set, multiplier] : one.rows) {
      if (multiplier > 0) numbers.rows[set] = multiplier;
    }
    Sample charged = one;
    for (auto& [set, multiplier] : charged.rows) {
      if (random.below(2) == 0) numbers.rows.erase(set), multiplier = 0;
    }
    const Links<Weight> links = links_under<Weight>(one.instance, numbers, 1);
    std::set<PlainState> kept;
    for (const int v : one.instance.customers()) {
      if (loads->of[v] > loads->room) continue;
      PlainState first{loads->of[v], v, {}, {}};
      for (std::size_t k = 0; k < one.memory.rows.size(); k++) {
        if (one.memory.rows[k].inside.has(v)) first.open.add(static_cast<int>(k));
      }
      keep(charged, *loads, links, first, links[static_cast<std::size_t>(v)], kept);
    }
    RunBound bound(one.instance, *loads, 1);
    CHECK(bound.value(numbers, one.memory, {}, 1000000) > kNoValue);
    CHECK(bound.states() == kept.size());
    most = std::max(most, kept.size());
    bound.value(numbers, one.memory.with_rows_of(numbers.rows), {}, 1000000);
    free_row_parts = free_row_parts || bound.states() < kept.size();
  }
  CHECK(most > 30);
  CHECK(free_row_parts);
}

TEST_CASE("Too many states have no bound") {
  Random random(5);
  const Sample one = sample(6, random);
  const auto loads = loads_in(one.instance, 1);
  RunBound bound(one.instance, *loads, 1);
  RunLeaf numbers;
  numbers.potentials.assign(6, -20);
  numbers.potentials[0] = 0;
  CHECK(bound.value(numbers, one.memory, {}, 1000000) > kNoValue);
  const std::size_t states = bound.states();
  CHECK(states > 0);
  CHECK(bound.value(numbers, one.memory, {}, states) > kNoValue);
  CHECK(bound.value(numbers, one.memory, {}, states - 1) == kNoValue);
}

TEST_CASE("Bounds of the star are those by hand") {
  const CvrpInstance instance = star();
  const auto loads = loads_in(instance, 1);
  RunBound bound(instance, *loads, 1);
  Memory memory{std::vector<Bits>(5), {row_of({1, 2, 3})}};
  RunLeaf numbers;
  numbers.potentials = {0, -5, -5, -5, 0};
  numbers.rows[{1, 2, 3}] = 10;
  CHECK(bound.value(numbers, memory, {}, 1000) == -20);  // 4 forgets it
  memory.rows[0].keepers.add(4);
  CHECK(bound.value(numbers, memory, {}, 1000) == 20);
  numbers.rows[{1, 2, 3}] = 9;
  CHECK(bound.value(numbers, memory, {}, 1000) == 17);
}

TEST_CASE("Rounded duals win back what is above 0") {
  const CvrpInstance instance = star();
  const auto loads = loads_in(instance, 1);
  RunBound bound(instance, *loads, 1000);
  Memory memory{std::vector<Bits>(5), {row_of({1, 2, 3})}};
  memory.rows[0].keepers.add(4);
  RunDuals duals;
  duals.potentials = {0, -4.9999, -4.9999, -4.9999, -0.0001};
  duals.rows[{1, 2, 3}] = 9.9999;
  const auto made = bound.rounded(duals, memory, {}, 1, kNoValue, 1000);
  REQUIRE(made);
  const RunLeaf& numbers = made->numbers;
  CHECK(numbers.potentials == std::vector<Weight>{0, -4999, -4999, -4999, 0});
  CHECK(numbers.rows.at({1, 2, 3}) == 10000);
  // A route of one weighs 10000 - 2 * 4999 = 2. All others weigh more, so this is won back for two routes.
  CHECK(numbers.multipliers.at(instance.customers()) == 1);
  CHECK(bound.value(numbers, memory, {}, 1000) == 2 * 3 * 4999 - 10000 + 4);
  CHECK(made->value == 2 * 3 * 4999 - 10000 + 4);
  CHECK_FALSE(bound.rounded(duals, memory, {}, 1, 21000, 1000));  // they are 20 at most
}
