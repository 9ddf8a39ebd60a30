// Tests of the numbers of leaves: their bounds, their grid, and the numbers of the leaf before.
#include <algorithm>

#include "fixtures.h"
#include "tree/leaves.h"
#include "tree/near_chains.h"
#include "tree/tree_bound.h"

using namespace certify;

// Any numbers give a bound that no tour is below.
TEST_CASE("any numbers bound every tour") {
  Random random(9);
  for (int trial = 0; trial < 200; trial++) {
    const Matrix weights = random_matrix(7, random);
    CutPool pool(7);
    const int comb = pool.add_comb({{0, 1, 2}, {0, 3}, {1, 4}, {2, 5}});
    TreeBound bound(weights, pool, 10);
    Numbers numbers;
    for (int v = 0; v < 7; v++) numbers.potentials.push_back(random.below(2000) - 1000);
    numbers.multipliers[comb] = random.below(500);
    CHECK(bound.bound_of(bound.value(numbers, {})) <=
          shortest(weights));  // a bound is above the shortest tour
    const Value all = bound.value(numbers, {});
    const Value with = bound.value(numbers, {{{2, 4}, true}}),
                without = bound.value(numbers, {{{2, 4}, false}});
    CHECK((with >= all && without >= all && std::min(with, without) == all));  // decisions lower a bound
    const std::vector<Decision> none, decided{{{2, 4}, true}};
    TreeBound few(weights, pool, 10);
    few.add_likely({{0, 1}, {1, 2}, {2, 3}, {3, 4}, {4, 5}, {5, 6}, {0, 6}});
    CHECK(few.likely_value(numbers, none) >= all);  // likely edges give less than all edges
    CHECK((few.reaches(numbers, none, all) &&
           !few.reaches(numbers, none, all + 1)));  // a goal is reached or not
    CHECK((few.value(numbers, none) == all &&
           few.likely_value(numbers, none) == all));  // the tree's edges join
    few.value(numbers, decided);
    CHECK(few.likely_value(numbers, decided) == with);  // the same under decisions
    int crossed = 0;
    for (const auto& [i, j] : few.links()) {
      for (const NodeSet& set : pool[comb].sets) {
        crossed += std::count(set.begin(), set.end(), i) != std::count(set.begin(), set.end(), j) ? 1 : 0;
      }
    }
    CHECK(few.crossings().at(comb) == crossed);  // the crossings of the tree
    numbers.multipliers[comb] = -1;
    CHECK(bound.value(numbers, {}) == ExactBound::nothing());  // a multiplier below 0
  }
}

TEST_CASE("values are rounded up to bounds") {
  CutPool pool(3);
  const Matrix weights(3);
  TreeBound bound(weights, pool, 10);
  CHECK((bound.bound_of(21) == 3 && bound.bound_of(20) == 2));
  CHECK((bound.bound_of(-21) == -2 && bound.bound_of(-20) == -2));  // bounds below 0 too
  const Value least = ExactBound::nothing();
  CHECK((bound.bound_of(least) < 0 && bound.bound_of(-least) > 0));  // past all lengths
}

// A rectangle of 3 by 4, whose tours have the lengths 14, 16 and 18. At the scale 10, multiples of 10 near
// these potentials give 13 only, until a step along the 1-tree mends them.
TEST_CASE("numbers become multiples of a grid") {
  Matrix weights(4);
  const std::vector<std::pair<Pair, Weight>> lengths{{{0, 1}, 3}, {{2, 3}, 3}, {{1, 2}, 4},
                                                     {{0, 3}, 4}, {{0, 2}, 5}, {{1, 3}, 5}};
  CutPool pool(4);
  TreeBound bound(weights, pool, 10);
  for (const auto& [pair, length] : lengths) {
    weights.set(pair.first, pair.second, length);
    bound.add_likely({pair});
  }
  Leaves leaves(bound, pool, false);
  const Numbers numbers{{7, -7, 7, -7}, {}};
  CHECK(bound.bound_of(bound.value(numbers, {})) == 14);                          // as they are
  CHECK(bound.bound_of(bound.value(Numbers{{10, -10, 10, -10}, {}}, {})) == 13);  // rounded alone
  const auto coarse = leaves.coarse(numbers, {}, 14, 10);
  REQUIRE(coarse);
  CHECK(bound.bound_of(bound.value(*coarse, {})) == 14);
  for (const Weight potential : coarse->potentials) CHECK(potential % 10 == 0);
  CHECK(!leaves.coarse(numbers, {}, 15, 10));  // no numbers bound a tour of 14 by 15
}

// A leaf whose own numbers differ from the last ones at most nodes. The last ones with fewer changes reach
// most of what it gains. With less time there are numbers too, or none.
TEST_CASE("numbers are near those of the leaf before") {
  Random random(5);
  for (int trial = 0; trial < 5; trial++) {
    const Matrix weights = random_matrix(40, random);
    const Instance instance{weights, {}, false};
    const Start start{.tour = in_order(40)};
    const Problem problem(instance, start);
    CutPool pool(40);
    const int comb = pool.add_comb({{0, 1, 2}, {0, 3}, {1, 4}, {2, 5}});
    TreeBound bound(weights, pool, problem.scale);
    bound.add_likely(problem.edges);
    Leaves leaves(bound, pool, false);
    const auto best = [&](const Numbers& numbers, const std::vector<Decision>& decisions) {
      return leaves.restricted(numbers, {1}, decisions, leaves.goal(40000), 300);
    };
    const Numbers last = best({std::vector<Weight>(40, 0), {{comb, problem.scale}}}, {});
    bound.value(last, {});
    const std::vector<Decision> decisions{{bound.links()[7], false}, {bound.links()[20], true}};
    const Numbers own = best(last, decisions);
    const Value before = bound.value(last, decisions), most = bound.value(own, decisions);
    REQUIRE(most > before);
    const Value goal = before + (most - before) * 4 / 5;
    const Clock clock(0);
    NearProgram program(problem, pool, bound, clock, 1);
    const auto near = program.find({last, own, decisions, goal, 2});
    REQUIRE(near);
    CHECK(bound.value(*near, decisions) >= goal);
    CHECK(differences(*near, last) < differences(own, last));
    for (int v = 0; v < 40; v++) CHECK((near->potentials[v] - last.potentials[v]) % 2 == 0);
    CHECK(!program.find({last, own, decisions, leaves.goal(1000000), 1}));  // no tour is as long
    for (const double seconds : {0.0001, 0.0003, 0.001, 0.003, 0.01, 0.03}) {
      const Clock ending(Clock::now() + seconds);
      NearProgram limited(problem, pool, bound, ending, 1);
      const auto some = limited.find({last, own, decisions, goal, 2});
      if (some) CHECK(bound.value(*some, decisions) >= goal);
    }
    const Clock over(Clock::now() / 2);
    CHECK(!NearProgram(problem, pool, bound, over, 1).find({last, own, decisions, goal, 2}));
  }
}

// Each leaf follows once in a chain, beside the one before it there, or is the anchor of two.
TEST_CASE("chains go from anchors through all leaves") {
  for (const int count : {1, 2, 3, 23, 24, 25, 127, 128, 300}) {
    const std::vector<Chain> chains = chains_of(count);
    CHECK(chains.size() == (count < 24 ? 2 : count < 128 ? 4 : 8));
    std::vector<int> all;
    std::size_t longest = 0;
    for (std::size_t k = 0; k < chains.size(); k++) {
      const Chain& chain = chains[k];
      for (std::size_t place = 1; place < chain.size(); place++)
        CHECK(chain[place] - chain[place - 1] == (k % 2 == 0 ? -1 : 1));
      if (k % 2 == 1) CHECK(chain[0] == chains[k - 1][0]);
      all.insert(all.end(), chain.begin() + (k % 2 == 0 ? 0 : 1), chain.end());
      longest = std::max(longest, chain.size());
    }
    std::sort(all.begin(), all.end());
    CHECK(all == in_order(count));
    CHECK(longest <= count / chains.size() + 2);
  }
}

// Leaves of two anchors, each with an edge that isn't used. One of them isn't done.
TEST_CASE("leaves have numbers near those beside them") {
  Random random(7);
  const Instance instance{random_matrix(40, random), {}, false};
  const Start start{.tour = in_order(40)};
  const Problem problem(instance, start);
  const CutPool pool(40);
  TreeBound bound(instance.weights, pool, problem.scale);
  Leaves made(bound, pool, false);
  const Numbers zero{std::vector<Weight>(40, 0), {}};
  Value least = bound.value(zero, {});
  const std::vector<Pair> links = bound.links();
  bound.add_likely(problem.edges);
  std::vector<Numbers> own;
  std::vector<ListedLeaf> leaves;
  for (int k = 0; k < 30; k++) {
    const std::vector<Decision> decisions{{links[k], false}};
    own.push_back(made.restricted(zero, {}, decisions, made.goal(40000), 100));
    const Value value = bound.value(own[k], decisions);
    least = k == 0 ? value : std::min(least, value);
    leaves.push_back({nullptr, decisions, k != 3});
  }
  for (int k = 0; k < 30; k++) leaves[k].own = &own[k];
  const Clock clock(0);
  const Weight target = least / problem.scale;
  const auto made_near = [&](bool by_programs) {
    return near_numbers({problem, pool, clock, target, 1, by_programs}, leaves);
  };
  const std::vector<Numbers> near = made_near(true), idle = made_near(false);
  std::size_t whole = 0, less = 0, least_of_all = 0;
  for (int k = 0; k < 30; k++) {
    const bool kept = near[k].potentials == own[k].potentials;
    CHECK(kept == (k == 3 || k == 7 || k == 22));
    CHECK((!leaves[k].done || bound.value(near[k], leaves[k].decisions) >= made.goal(target)));
    if (k == 0) continue;
    whole += differences(own[k], own[k - 1]);
    less += differences(idle[k], idle[k - 1]);
    least_of_all += differences(near[k], near[k - 1]);
  }
  CHECK(less < whole / 2);
  CHECK(least_of_all <= less);
}
