// The search for routes: capacity cuts, column generation, branches, plans, and the window of jobs.
#include <algorithm>

#include "route_fixtures.h"
#include "routes/capacity_cuts.h"
#include "routes/column_generation.h"
#include "routes/set_branching.h"
#include "routes/string_removals.h"
#include "running/job_window.h"

using namespace certify;
using namespace certify::routes;

TEST_CASE("Capacity cuts are sets that are crossed too seldom") {
  // Two components of demand 8 without the depot, and one customer beside it.
  CvrpInstance instance{Matrix(6), {0, 4, 4, 4, 4, 4}, 8, {1, 2, 3, 4, 5, 6}, true};
  Graph support(6);
  const auto link = [&](int a, int b, double value) {
    support[a].push_back({b, value});
    support[b].push_back({a, value});
  };
  link(1, 2, 1);
  link(2, 3, 1);
  link(1, 3, 1);
  link(0, 4, 1);
  link(4, 5, 1);
  link(0, 5, 1);
  CapacityCuts cuts(instance, 1);
  const std::vector<CapacityCut> found = cuts.violated(support, true, 0.02);
  REQUIRE_FALSE(found.empty());
  CHECK(found[0].set == NodeSet{1, 2, 3});
  CHECK(found[0].slack == Approx(-4));  // it needs two routes, and is crossed by none
}

// Three customers of demand 2, a vehicle for 5: two routes have to come, which cross their set four times.
TEST_CASE("A capacity cut is found at a fractional point that breaks it, and not where it holds") {
  const CvrpInstance instance{Matrix(5), {0, 2, 2, 2, 5}, 5, {1, 2, 3, 4, 5}, true};
  const auto point = [&](double inside) {
    Graph support(5);
    const auto add = [&](int a, int b, double value) {
      support[a].push_back({b, value});
      support[b].push_back({a, value});
    };
    for (int v = 1; v <= 3; v++) {
      add(0, v, 2 - 2 * inside);
      for (int u = v + 1; u <= 3; u++) add(v, u, inside);
    }
    add(0, 4, 2);
    return support;
  };
  CapacityCuts cuts(instance, 1);
  const std::vector<CapacityCut> found = cuts.violated(point(0.5), true, 0.02);
  REQUIRE(found.size() == 1);
  CHECK(found[0].set == NodeSet{1, 2, 3});
  CHECK(found[0].slack == Approx(-1));
  // Two of them are crossed three times, where two are needed.
  REQUIRE_FALSE(cuts.between().empty());
  for (const CapacityCut& set : cuts.between()) {
    CHECK(set.set.size() == 2);
    CHECK(set.slack == Approx(1));
  }
  CHECK(cuts.violated(point(1.0 / 3), true, 0.02).empty());
}

TEST_CASE("Found cuts are violated as they say") {
  Random random(3);
  for (int k = 0; k < 20; k++) {
    const CvrpInstance instance = random_instance(9, 9, random);
    Graph support(9);
    std::vector<std::vector<double>> values(9, std::vector<double>(9, 0));
    for (int walks = 0; walks < 6; walks++) {  // a mix of cycles through the depot
      NodeSet order = instance.customers();
      random.shuffle(order);
      int last = 0;
      for (const int v : order) {
        values[std::min(last, v)][std::max(last, v)] += 1.0 / 6;
        last = v;
      }
      values[0][last] += 1.0 / 6;
    }
    for (int a = 0; a < 9; a++) {
      for (int b = a + 1; b < 9; b++) {
        if (values[a][b] == 0) continue;
        support[a].push_back({b, values[a][b]});
        support[b].push_back({a, values[a][b]});
      }
    }
    CapacityCuts cuts(instance, 1);
    for (const CapacityCut& cut : cuts.violated(support, true, 0.02)) {
      double crossed = 0;
      for (const int v : cut.set) {
        for (const Edge& edge : support[v]) {
          if (std::find(cut.set.begin(), cut.set.end(), edge.to) == cut.set.end()) crossed += edge.value;
        }
      }
      CHECK(cut.slack ==
            Approx(crossed - 2 * instance.fewest_routes(instance.demand_of(cut.set))).margin(1e-6));
      CHECK(cut.slack < 0);
    }
  }
}

TEST_CASE("Column generation ends at the program's value, below the shortest plan") {
  Random random(4);
  for (int k = 0; k < 12; k++) {
    const CvrpInstance instance = random_instance(4 + k % 4, 8, random);
    const Loads loads = *loads_in(instance, 1);
    const std::vector<Routes> plans = all_plans(instance);
    Weight least = length_of(instance, plans[0]);
    for (const Routes& plan : plans) least = std::min(least, length_of(instance, plan));
    WalkProgram program(instance, least);
    ColumnGeneration generation(instance, loads, program, {});
    const std::function<bool()> late = [] { return false; };
    const double bound = generation.run({1e9, 1e-6, true, late});
    CHECK(bound == Approx(program.value()).margin(1e-4));
    CHECK(bound <= static_cast<double>(least) + 1e-6);
    WalkBound exact(instance, loads, 100000);
    const Weight reached = exact.bound_of(exact.value(exact.rounded(generation.best(), 1), {}));
    CHECK(static_cast<double>(reached) >= bound - 0.01);
    CHECK(reached <= least);
  }
}

TEST_CASE("Column generation that begins with a plan has a bound at once, and ends as without it") {
  Random random(6);
  const std::function<bool()> late = [] { return false; };
  for (int k = 0; k < 8; k++) {
    const CvrpInstance instance = random_instance(8 + k, 8, random, k % 2 == 0 ? 0 : -10);
    const Loads loads = *loads_in(instance, 1);
    const Routes plan = find_routes(instance, std::nullopt, 1, [] { return 0.0; }).best;
    WalkProgram program(instance, length_of(instance, plan)), other(program);
    ColumnGeneration begun(instance, loads, program, {}), generation(instance, loads, other, {});
    begun.begin_with(plan, late);
    CHECK(begun.has_bound());
    CHECK(begun.bound() <= static_cast<double>(length_of(instance, plan)) + 1e-6);
    WalkBound exact(instance, loads, 100000);
    const Weight reached = exact.bound_of(exact.value(exact.rounded(begun.best(), 1), {}));
    CHECK(static_cast<double>(reached) >= begun.bound() - 0.01);
    CHECK(begun.run({1e9, 1e-6, true, late}) == Approx(generation.run({1e9, 1e-6, true, late})).margin(1e-4));
  }
}

TEST_CASE("A branch is on a set that the solution crosses between two even numbers of times") {
  Random random(7);
  int branches = 0;
  for (int k = 0; k < 12; k++) {
    const CvrpInstance instance = random_instance(14, 14, random);
    const Loads loads = *loads_in(instance, 1);
    WalkProgram program(instance, 400);
    ColumnGeneration generation(instance, loads, program, {});
    const std::function<bool()> late = [] { return false; };
    const double bound = generation.run({1e9, 1e-6, true, late});
    const auto branch = choose_branch({instance, loads, program, {}, bound + 10}, {});
    if (!branch) continue;
    branches++;
    const Graph support = program.support();
    double crossed = 0;
    for (const int v : branch->set) {
      for (const Edge& edge : support[v]) {
        if (std::find(branch->set.begin(), branch->set.end(), edge.to) == branch->set.end())
          crossed += edge.value;
      }
    }
    CHECK(crossed > 2 * branch->t);
    CHECK(crossed < 2 * branch->t + 2);
    const std::vector<Limit> broken{{branch->set, true, branch->t}};  // by this solution
    const auto other = choose_branch({instance, loads, program, broken, bound + 10}, {});
    CHECK((!other || other->set != branch->set));
    for (const bool first : {true, false}) {  // what is reckoned of a case isn't below its bound
      const std::vector<Limit> limits{{branch->set, first, branch->t}};
      WalkProgram below(program);
      below.limit(branch->set, limited_crossings(instance, limits).at(branch->set));
      ColumnGeneration more(instance, loads, below, limits);
      const double reckoned = more.estimate(2);
      CHECK(reckoned >= bound - 1e-4);
      CHECK(more.run({1e9, 1e-6, true, late}) <= reckoned + 1e-4);
    }
  }
  CHECK(branches > 2);
}

TEST_CASE("String removals find shortest plans of few customers") {
  Random random(5);
  for (int k = 0; k < 8; k++) {
    const CvrpInstance instance = random_instance(2 + k % 6, 9, random, k % 2 == 0 ? 0 : -10);
    const std::vector<Routes> plans = all_plans(instance);
    Weight least = length_of(instance, plans[0]);
    for (const Routes& plan : plans) least = std::min(least, length_of(instance, plan));
    const FoundRoutes found = find_routes(instance, std::nullopt, 1, [] { return 0.0; });
    CHECK(is_plan(instance, found.best));
    CHECK(length_of(instance, found.best) == least);
    for (const Route& route : found.met) CHECK(instance.demand_of(route) <= instance.capacity);
  }
}

TEST_CASE("What is no plan isn't taken for one") {
  const CvrpInstance instance = rectangle(8);
  CHECK(is_plan(instance, {{1}, {2, 3}}));
  CHECK_FALSE(is_plan(instance, {{1, 2, 3}}));
  CHECK_FALSE(is_plan(instance, {{1}, {2}}));
  CHECK_FALSE(is_plan(instance, {{1}, {2, 3}, {1}}));
  CHECK_FALSE(is_plan(instance, {{1}, {2, 3}, {}}));
  CHECK_FALSE(is_plan(instance, {{0, 1}, {2, 3}}));
}

TEST_CASE("Jobs of a window are taken in their order, each after those that it has to know") {
  struct Job {
    int number = -1, known = -1;
  };
  for (const int size : {1, 3}) {
    JobWindow<Job> window(size);
    int begun = 0;
    std::vector<int> taken;
    window.run(
        [&](Job& job) {
          if (begun == 20) return false;
          job = {begun++, static_cast<int>(taken.size())};
          return true;
        },
        [](auto& slot) {
          const std::lock_guard own(slot.access);
          slot.job.number *= 2;
        },
        [&](Job& job) {
          CHECK(job.known == std::max(0, job.number / 2 - size + 1));
          taken.push_back(job.number);
        });
    REQUIRE(taken.size() == 20);
    for (int k = 0; k < 20; k++) CHECK(taken[k] == 2 * k);
  }
}
