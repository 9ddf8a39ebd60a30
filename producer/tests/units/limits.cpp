// Tests of the limits of the format: what is counted, and what is left out.
#include "fixtures.h"
#include "tree/joining.h"
#include "tree/leaves.h"
#include "tree/named_cuts.h"
#include "tree/tree_bound.h"

using namespace certify;

namespace {
TreeStep leaf(std::vector<Weight> potentials, std::map<int, Weight> multipliers) {
  return Numbers{std::move(potentials), std::move(multipliers)};
}

bool same(const Extent& a, const Extent& b) {
  return a.families == b.families && a.nodes == b.nodes && a.differences == b.differences &&
         a.branches == b.branches;
}
}  // namespace

// Two families are named, of three and of four nodes. The leaves have 2, 3 and 0 differences.
TEST_CASE("what is limited is counted") {
  const std::vector<NodeSet> pair{{0, 1, 2}}, other{{1, 2}, {2, 3}}, unnamed{{0, 3}};
  Certificate tree{4, 1, {}, {pair, unnamed, other}, {Pair(0, 1), leaf({1, 0, 0, 0}, {{0, 3}, {1, 0}})}};
  tree.steps.emplace_back(Pair(0, 2));
  tree.steps.push_back(leaf({1, 5, 0, 0}, {{2, 1}}));
  tree.steps.push_back(leaf({1, 5, 0, 0}, {{2, 1}}));
  const Extent extent = extent_of(tree);
  CHECK(same(extent, {2, 7, 5, 2}));
  CHECK(is_within(extent, extent));
  for (const Extent& less : {Extent{1, 7, 5, 2}, Extent{2, 6, 5, 2}, Extent{2, 7, 4, 2}, Extent{2, 7, 5, 1}})
    CHECK(!is_within(extent, less));
}

// Cuts of 2 nodes each, where there is space for 20 of them, or for 50 nodes.
TEST_CASE("named cuts keep the limits") {
  CutPool pool(60);
  for (int k = 0; k < 30; k++) pool.add_subtour({2 * k, 2 * k + 1});
  const auto numbers = [](int first, int last) {
    Numbers numbers;
    for (int cut = first; cut < last; cut++) numbers.multipliers[cut] = cut;
    return numbers;
  };
  for (const Extent& limits : {Extent{20, 1000}, Extent{1000, 40}}) {
    NamedCuts named(pool, limits);
    named.add(numbers(0, 15));
    CHECK((!named.is_closed() && !named.has(0) && named.has(14) &&
           !named.has(15)));  // a multiplier 0 names none
    CHECK((named.fit(numbers(0, 21)) && !named.fit(numbers(0, 22))));
    named.add(numbers(10, 20));  // 19 of 20
    CHECK(named.is_closed());
    const auto marks = named.marks();
    named.fill({{20, 7}, {21, 8}, {22, 6}});
    CHECK((named.has(21) && !named.has(20) && !named.has(22)));  // the largest sum first
    CHECK(!is_marked(*marks, 21));                               // as they were
    CHECK((named.fit(numbers(0, 20)) && !named.fit(numbers(20, 21))));
  }
  NamedCuts part(pool, {20, 1000});
  part.share({0, 1, 2, 3, 4, 5, 6, 7, 8, 9}, 3);  // 3 of the other 10
  CHECK((part.fit(numbers(0, 13)) && !part.fit(numbers(0, 14)) && !part.is_closed()));
  part.add(numbers(10, 13));
  CHECK(part.is_closed());
  NamedCuts none(pool, {20, 1000});
  none.share({0, 1, 2, 3, 4, 5, 6, 7, 8, 9}, 11);
  CHECK(none.is_closed());
}

// Seven nodes, and a comb with a multiplier.
TEST_CASE("numbers without a cut are mended") {
  Random random(9);
  for (int trial = 0; trial < 50; trial++) {
    const Matrix weights = random_matrix(7, random);
    CutPool pool(7);
    const int comb = pool.add_comb({{0, 1, 2}, {0, 3}, {1, 4}, {2, 5}}), pair = pool.add_subtour({5, 6});
    TreeBound bound(weights, pool, 10);
    for (int i = 0; i < 7; i++) {
      for (int j = 0; j < i; j++) bound.add_likely({{j, i}});
    }
    Leaves leaves(bound, pool, false);
    Numbers numbers;
    for (int v = 0; v < 7; v++) numbers.potentials.push_back(random.below(2000) - 1000);
    numbers.multipliers = {{comb, 300}, {pair, 40}};
    const Marks marks{0, 1};
    const Value goal = leaves.goal(shortest(weights));
    const auto value = [&](const Numbers& numbers) { return bound.value(numbers, {}); };
    const Numbers plain = leaves.restricted(numbers, marks, {}, goal, 0),
                  mended = leaves.restricted(numbers, marks, {}, goal, 50);
    CHECK((plain.multipliers == std::map<int, Weight>{{pair, 40}} && !mended.multipliers.contains(comb)));
    CHECK(value(mended) >= value(plain));
    CHECK(bound.bound_of(value(mended)) <= shortest(weights));
    const Numbers whole = leaves.restricted(numbers, {1, 1}, {}, value(numbers), 9);  // reached as it is
    CHECK((whole.potentials == numbers.potentials && whole.multipliers == numbers.multipliers));
  }
}

// A tree of three leaves, and parts of each, which have 1, 2 and 3 families of their own.
TEST_CASE("parts that are too much for a file are left out") {
  const auto family = [](int k) { return std::vector<NodeSet>{{k, k + 1}}; };
  const std::vector<Weight> zeros(9, 0);
  Certificate tree{
      9, 1, {{"open", "3"}}, {}, {Pair(0, 1), Pair(0, 2), leaf(zeros, {}), leaf(zeros, {}), leaf(zeros, {})}};
  std::vector<Certificate> parts;
  for (int k = 3; k > 0; k--) {
    Certificate part{9, 1, {{"tree", identity_of(tree)}, {"leaf", std::to_string(k)}}, {}, {}};
    std::map<int, Weight> multipliers;
    for (int own = 0; own < k; own++) {
      part.families.push_back(family(k == 1 ? 0 : k == 2 ? 1 + own : 3 + own));
      multipliers[own] = 1;
    }
    part.steps.push_back(leaf(zeros, multipliers));
    parts.push_back(part);
  }
  const auto left_out = [&](const Extent& limits) { return joined(tree, parts, limits).left_out; };
  CHECK(left_out({6, 100, 100, 100}).empty());
  CHECK(left_out({5, 100, 100, 100}) == std::vector<std::size_t>{0});  // the largest
  CHECK(left_out({100, 11, 100, 100}) == std::vector<std::size_t>{0});
  CHECK(left_out({2, 100, 100, 100}) == std::vector<std::size_t>{0, 1});
  CHECK(left_out({0, 100, 100, 100}) == std::vector<std::size_t>{0, 1, 2});
  CHECK(left_out({100, 100, 6, 100}) == std::vector<std::size_t>{0});  // 1 + 3 + 2 without it
  const Certificate some = joined(tree, parts, {5, 100, 100, 100}).whole;
  CHECK((is_within(extent_of(some), {5, 100, 100, 100}) && note_of(some, "open", 0) == 1));
}
