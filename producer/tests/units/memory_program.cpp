// Rows that a solution breaks, the program over runs, and the sections of a file, by hand.
#include <cmath>
#include <cstdio>
#include <fstream>
#include <sstream>

#include "fixtures.h"
#include "memory/memory_growth.h"
#include "memory/run_program.h"
#include "memory_fixtures.h"

using namespace certify;
using namespace certify::routes;

TEST_CASE("Rows of three are found where runs share their customers") {
  Memory memory{std::vector<Bits>(6)};
  // Halves of runs of two of 1, 2 and 3; one goes by 4.
  MemoryGrowth growth(memory, {{0.5, {1, 2}}, {0.5, {2, 4, 3}}, {0.5, {1, 3}}, {1, {5}}}, 20);
  CHECK(growth.forbid_cycles() == 0);
  CHECK(growth.add_rows() == 1);
  REQUIRE(memory.rows.size() == 1);
  CHECK(memory.rows[0].set == NodeSet{1, 2, 3});
  CHECK(listed(memory.rows[0].keepers) == NodeSet{1, 2, 3, 4});
  CHECK(MemoryGrowth(memory, {{0.5, {1, 2}}, {0.5, {2, 4, 3}}, {0.5, {1, 3}}}, 20).add_rows() == 0);
  // Later a run goes by 5: one more customer keeps the row.
  CHECK(MemoryGrowth(memory, {{0.5, {1, 5, 2}}, {0.5, {2, 4, 3}}, {0.5, {1, 3}}}, 20).add_rows() == 1);
  CHECK(listed(memory.rows[0].keepers) == NodeSet{1, 2, 3, 4, 5});
}

TEST_CASE("A row that is paid for just as often as it may be isn't broken") {
  Memory memory{std::vector<Bits>(6)};
  MemoryGrowth growth(memory, {{1.0 / 3, {1, 2}}, {1.0 / 3, {2, 3}}, {1.0 / 3, {1, 3}}, {1, {4}}}, 20);
  CHECK(growth.add_rows() == 0);
}

TEST_CASE("A run that comes to a customer twice pays for that too") {
  Memory memory{std::vector<Bits>(6)};
  // 1 / 2 + 1 / 2 + 1 / 4 of the runs pay for 1, 2 and 3.
  MemoryGrowth growth(memory, {{0.5, {1, 4, 1}}, {0.5, {2, 3}}, {0.25, {1, 2}}}, 20);
  CHECK(growth.add_rows() == 1);
  REQUIRE(memory.rows.size() == 1);
  CHECK(memory.rows[0].set == NodeSet{1, 2, 3});
  CHECK(listed(memory.rows[0].keepers) == NodeSet{1, 2, 3, 4});
}

// A quarter of each pair: three customers are paid for by 3 / 4 of the runs, and five by 10 / 4.
TEST_CASE("A row of five is found where no row of three is broken") {
  Memory memory{std::vector<Bits>(7)};
  std::vector<UsedRun> used{{1, {6}}};
  for (int v = 1; v <= 5; v++) {
    for (int u = v + 1; u <= 5; u++) used.push_back({0.25, {v, u}});
  }
  MemoryGrowth growth(memory, used, 20);
  CHECK(growth.add_rows() == 1);
  REQUIRE(memory.rows.size() == 1);
  CHECK(memory.rows[0].set == NodeSet{1, 2, 3, 4, 5});
  CHECK(memory.rows[0].half() == 2);
  CHECK(listed(memory.rows[0].keepers) == NodeSet{1, 2, 3, 4, 5});
}

TEST_CASE("No customer keeps more than there is room for") {
  Memory memory{std::vector<Bits>(6)};
  memory.near[4].add(5);
  MemoryGrowth growth(memory, {{0.5, {1, 2}}, {0.5, {2, 4, 3}}, {0.5, {1, 3}}}, 1);
  CHECK(growth.add_rows() == 0);  // 4 keeps one thing, and without it 1 / 2 + 1 / 2 isn't above 1
  memory.near[4] = {};
  CHECK(MemoryGrowth(memory, {{0.5, {1, 2}}, {0.5, {2, 4, 3}}, {0.5, {1, 3}}}, 1).add_rows() == 1);
  CHECK(memory.kept_at(4) == 1);
}

TEST_CASE("Customers of a cycle remember where it began") {
  Memory memory{std::vector<Bits>(6)};
  MemoryGrowth growth(memory, {{0.5, {1, 2, 3, 1, 4}}, {0.5, {5, 2}}}, 20);
  CHECK(growth.forbid_cycles() == 1);
  CHECK(memory.near[2].has(1));
  CHECK(memory.near[3].has(1));
  CHECK(memory.near[1].count() == 0);
  CHECK_FALSE(is_run(memory, {1, 2, 3, 1, 4}));
  CHECK(growth.forbid_cycles() == 0);
}

TEST_CASE("The program over runs has a plan's length where its rows make it whole") {
  CvrpInstance instance{Matrix(4), {0, 1, 1, 1}, 2, {1, 2, 3, 4}, true};
  for (int v = 1; v < 4; v++) instance.costs.set(0, v, 5);
  RunProgram program(instance, nearest_memory(instance, 2));
  program.add_runs({{1, 2}, {1, 3}, {2, 3}});
  program.rebuild();
  CHECK(is_near(program.value(), 20));  // two routes at least: all customers are crossed four times
  program.memory().rows.push_back(row_of({1, 2, 3}));
  program.rebuild();
  CHECK(is_near(program.value(), 20));
  CHECK(is_near(program.back_of(program.duals()), 20));
  const std::array<double, 2> gains = program.gains(instance.customers(), 2, 100);
  CHECK(is_near(gains[0], 0));
  CHECK(is_near(gains[1], 10));
}

TEST_CASE("A run that is fixed is used wholly") {
  CvrpInstance instance{Matrix(4), {0, 1, 1, 1}, 2, {1, 2, 3, 4}, true};
  for (int v = 1; v < 4; v++) instance.costs.set(0, v, 5);
  instance.costs.set(1, 2, 4);
  RunProgram program(instance, nearest_memory(instance, 2));
  program.add_runs({{1, 2}, {1, 3}, {2, 3}});
  program.rebuild();
  CHECK(is_near(program.value(), 20));  // 1 or 2 alone, and the two others
  const auto run = std::find(program.runs().begin(), program.runs().end(), Route{1, 2});
  program.fix(static_cast<int>(run - program.runs().begin()));
  CHECK(is_near(program.value(), 24));
  REQUIRE(program.plan());
  CHECK(*program.plan() == Routes{{3}, {1, 2}});
}

TEST_CASE("The sections of a memory are written after the families") {
  Certificate certificate{.nodes = 5, .families = {{{1, 2}}}};
  certificate.memory[2] = {1, 3};
  certificate.rows = {{{1, 2, 3}, {4}}, {{2, 4}, {}}};
  certificate.steps = {Numbers{{0, -5, 0, 0, 0}, {{0, 3}, {kFirstRow, 2}, {kFirstRow + 1, 7}}}};
  write_certificate("memory.branches", certificate, false);
  std::stringstream text;
  text << std::ifstream("memory.branches").rdbuf();
  CHECK(text.str() ==
        "TYPE : BRANCHES\nDIMENSION : 5\nSCALE : 1\nCOMB_SECTION\n2 3 -1\n-1\n-1\n"
        "MEMORY_SECTION\n3 2 4 -1\n-1\nSUBSET_ROW_SECTION\n2 3 4 -1\n5 -1\n3 5 -1\n-1\n-1\n"
        "BRANCH_SECTION\n0 2 -5 6 3 10006 2 10007 7 -1\nEOF\n");
  std::remove("memory.branches");
}
