// The numbers that the search without a matrix is tuned by, on uniform and clustered points of
// bench/instances.
#pragma once
#include <cstddef>

#include "running/threads.h"

namespace sparse {
struct SparseParameters {
  int steps = 400;          // of the ascent: duals to begin with, and candidates
  int fewest_steps = 100;   // of it, whatever the clock says: a bound without them is poor
  long kicks_of_node = 10;  // of the tour, before edge assembly in its regions
  int region = 1000, population = 30;
  double at_long_edges = 0.3;  // of the nodes, in regions of their own at the end of a pass
  int long_region = 3000;      // most of these nodes are in fixed paths, so that it takes little time
  int passes = 5;              // over all regions, before the linear program
  int passes_beside = 2;       // while cuts help; a longer search would come too late for them
  int most_misses = 2;         // passes in a row that gain nothing
  int guided_tours = 2;        // along each solution: with other tours combs are found that one tour misses
  int near = 10, near_in_quadrant = 2;  // neighbours of a node: candidates of pricing
  int light = 5;                        // edges that the program begins with, by the ascent's duals
  double part_of_edge = 0.5;            // of an average edge: edges at 0 with more reduced cost are dropped
  double few_edges_of_node = 0.002;     // join in the next round: a solution for them alone isn't worth it
  int slack = 4;                        // a row that is slack in more solutions in a row is dropped
  int rounds_of_purge = 3, rounds_of_edges = 6, rounds_of_trees = 5;
  double cuts_of_node = 0.2;              // combs of a round
  double climbs_of_node = 0.4;            // handles of a round that are climbed from
  double pooled_of_node = 0.3;            // cuts of the pool that join in a round
  int levels = 2;                         // as often climbs are doubled before the search ends
  std::size_t window = 4;                 // rounds whose gain is looked at
  double least_gain = 0.03;               // a part of the gap; less is a stall
  double least_subtours_of_node = 0.003;  // while there are more, no combs are looked for
  int trees = 4;                          // exact 1-trees at the end, each of which brings edges
  double average_at_scale = 1e5;          // an average edge times the scale is at least as much
  std::size_t most_families = 10000, most_nodes = 1000000;  // of a file
};
inline constexpr SparseParameters kSparse{};

// Parts of the time, after which kicks of the first tour, its regions, cuts and the linear program end. After
// cuts the program may have to do with fewer combs. What follows are whole numbers and a shorter tour.
struct SparseTimes {
  double kicks, regions, cuts, program;
};
// Where there are more threads the tour is shortened while a program is solved, which takes one thread.
inline constexpr SparseTimes kAloneTimes{0.15, 0.3, 0.8, 0.85}, kBesideTimes{0.08, 0.1, 0.87, 0.94};
inline const SparseTimes& sparse_times() { return certify::threads() > 1 ? kBesideTimes : kAloneTimes; }
}  // namespace sparse
