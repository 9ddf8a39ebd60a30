// The numbers that the search for routes and their bounds is tuned by.
//
// None of them changes what a certificate says.
#pragma once
#include <cstddef>
#include <cstdint>

#include "graphs/tour.h"

namespace certify::routes {
// Plans by string removals: most numbers are those of the source.
struct RemovalParameters {
  int runs = 4;                            // at once, since one alone may miss the shortest plan
  std::int64_t steps = 8000;               // of each, for each customer
  std::int64_t steps_before_dives = 2000;  // at first, where dives find plans too
  std::int64_t few_steps = 20000;
  int near = 40;        // customers beside which another one is put back
  double removed = 10;  // customers of a step, on the average
  double longest_string = 10;
  double split = 0.5;          // the part of strings that leave out some customers between
  double longer_split = 0.99;  // the chance of one more customer between
  int overlooked = 128;        // one of as many places is
  double first_temperature = 2, last_temperature = 0.02;  // in average costs to a near customer
  double part_of_time = 0.2;
  double met_from = 0.3;  // of the run: routes of as many plans from then on join the linear program
  int met_plans = 100;
};
inline constexpr RemovalParameters kRemovals{};

// Walks that join the linear program.
struct ColumnParameters {
  double largest_cost = 1e7;  // in units of the program
  double step = 0.25;         // of the mix from the best duals toward the program's
  int parts_of_plan = 10;     // duals of a plan are tried whole, then with fewer of as many parts
  std::size_t fewest_at_once = 20, most_at_once = 150;
  std::size_t walks = 300, walks_of_node = 10;  // of more, those that cost too much are dropped
  double far = 0.1;                             // so much too much, in parts of the average link
  double small_table = 4e6;                     // steps of a table that is always filled whole
  int light_links = 64;                         // into each customer, that are tried in order
  int few_links = 12;                           // into each customer, of a table that isn't
  int enough_of_few = 5;                        // walks of such a table; of fewer the whole one is next
  int few_in_a_row = 8;
};
inline constexpr ColumnParameters kColumns{};

// Sets that a solution crosses too seldom.
struct CapacityCutParameters {
  double least_violation = 0.03;
  std::size_t most_at_once = 40;
  std::size_t enough = 400;        // where as many are found, no others are looked for
  std::size_t most_between = 400;  // to branch on
  std::size_t largest_set = 200;   // in parts
  int tabu_steps = 30, tabu_rest = 5;
  int slack_solutions = 10;  // a set that is slack in more in a row is dropped
};
inline constexpr CapacityCutParameters kCapacityCuts{};

// How a case goes on with walks and cuts, in parts of the length.
struct CutRounds {
  double first_tolerance, last_tolerance;  // between the bound and the value of the program
  std::size_t window;                      // over as many rounds the bound has to gain
  double least_gain;
};
inline constexpr CutRounds kRootRounds{1e-3, 2e-5, 5, 1e-4};
inline constexpr CutRounds kTreeRounds{2e-4, 2e-5, 2, 3e-4};

// Trials of branches.
struct SetBranchingParameters {
  std::size_t pairs = 12, sets = 16;
  double margin = 0.05, least_margin = 1e-4;  // from an even number of crossings, in pairs of them
  int iterations = 40;
  std::size_t priced = 4;  // the best ones by the program alone, that are tried once more with new walks
  int rounds = 3;          // of walks
};
inline constexpr SetBranchingParameters kSetBranching{};

// The tree.
struct RouteTreeParameters {
  double part_of_time = 0.96;
  double large_gap = 0.01, part_of_second_search = 0.1;  // of the length, of the time
  std::size_t walks = 600;                               // that a case leaves to those below
  Weight most_loads = 1500000;  // in cells: the table of more takes long, and too much memory by each thread
};
inline constexpr RouteTreeParameters kRouteTree{};

// The whole numbers of a leaf.
struct RouteLeafParameters {
  Weight scale = 252000;  // a multiple of many fractions
  double margin = 0.005;  // of a bound over the target, which rounding mostly leaves above it
  double spare = 0.3;     // more than that where it takes no other cuts, since it makes files short
  Weight most_scaled_cost = 10000000000000;  // so that potentials stay within their limit
  Weight most_common_scale = 1000000;        // of a file, with that of a certificate that is gone on with
  double least_multiplier = 1e-7;
};
inline constexpr RouteLeafParameters kRouteLeaves{};
}  // namespace certify::routes
