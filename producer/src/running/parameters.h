// The numbers that the search is tuned by, on the instances of bench/instances. None of them changes what a
// certificate says: another one gives other files, sooner or later.
#pragma once
#include <cstddef>

#include "graphs/tour.h"

namespace certify {
// Tours by edge assembly. The search costs 2 to 5 % of a run of 1,000 nodes, and a tour that isn't shortest
// leaves a gap that no cut closes, so that populations are large.
struct TourParameters {
  int population = 200;         // of the first search, mostly with a shortest tour up to 2,000 nodes
  int small_population = 30;    // where a tour was named: further tours are needed all the same
  int second_population = 150;  // where cuts leave a gap, by reduced costs, which lead to the tour sooner
  int third_population = 600;   // where families leave a large gap, which is then often the tour's
  int children = 30;            // of two members: more are seldom better than the best of these
  int patience = 30;            // generations without a shorter tour
  int most_generations = 2000;  // far more than a run needs
  std::size_t at_once = 32;     // members that are crossed by the edges of the same population
  int near = 10;                // neighbours of a node: 2-opt and repairs seldom use later ones
  int near_in_quadrant = 2;     // and so many of each quadrant, which lead from one cluster to another one
  double part_of_time = 0.4;    // that the first search may take
  double part_of_later_time = 0.5;  // by which a later one has to end
  int few_nodes = 8;                // of which all orders are tried
  double seconds_of_member = 4e-5;  // for each of its nodes, until a population is alike
  int steps_before_kicks = 400;     // of potentials
  long kicks_of_node = 5;           // before edge assembly
};
inline constexpr TourParameters kTours{};

// Tours of an ATSP by kicks and exchanges of three arcs.
struct ArcTourParameters {
  int runs = 4, patience = 200;              // of the first search
  int later_runs = 2, later_patience = 100;  // of the second one, by reduced costs
  int near = 8;                              // neighbours of a node
  int longest_kick = 30;  // the nodes between the ends of a kick: far ends are rarely mended
};
inline constexpr ArcTourParameters kArcTours{};

// The linear program.
struct ProgramParameters {
  int near = 6;             // edges to as many neighbours are there from the start; pricing brings the rest
  double rise = 10;         // of the penalty of elastic columns at a time, since each rise costs a solution
  double most_rise = 1e5;   // in all; duals beyond are too large for the tolerance of Clp
  int slack_at_root = 5;    // a row that is slack in more solutions in a row is dropped
  int slack_in_tree = 4;    // the same in the tree, whose pool brings it back
  int slack_at_branch = 3;  // the same where a solution is passed on
  int rounds_of_purge = 3;  // slack rows are dropped each third round: each time costs a factorization
  int rounds_of_edges = 6;  // edges are dropped each sixth round at the root
};
inline constexpr ProgramParameters kProgram{};

// How large the sets of cuts may be, in nodes.
struct Reach {
  std::size_t largest_handle = 200;  // that a climb goes on from
  std::size_t longest_path = 60;     // of whole edges that a step takes
  int longest_run = 100;             // of a tour of which all crossings are known
  int longest_tooth = 60;
  std::size_t largest_sets[4] = {0, 8, 20, 80};  // that a chunk shrinks, by the kind of a pass
};
// Most cuts are small, and larger ones take longer. Where few long edges join clusters, so that each tour
// crosses some place four times, the missed cuts have hundreds of nodes: lattice 1000 1 had a gap of 0.80 %
// after combs, and has 0.67 % with these, while uniform 1000 1 has 0.13 % by both.
inline constexpr Reach kFarReach{500, 200, 300, 250, {0, 20, 100, 500}};

// How much a round of cuts tries.
struct Effort {
  int climbs = 0;   // by combs, from the best handles
  int growths = 1;  // of handles, from each node
  double least_violation = 0.01;
  int further_tours = 2;      // besides the best one, whose runs are teeth
  int most_cuts = 200;        // combs of a round, and families
  bool tighten = false;       // nodes of cuts move to other atoms
  int atoms = 0, chunks = 0;  // of families; 0 looks for none
  Reach reach{};
};
// Rounds are cheap at the root, and each later case gains from its cuts. Four threads take its four tours at
// once. With a fifth one three of them would wait for the last.
inline constexpr Effort kRootEffort{.climbs = 400, .further_tours = 3};
// A case has few rounds, and the pool has most of its cuts.
inline constexpr Effort kCaseEffort{.climbs = 100, .least_violation = 0.02, .most_cuts = 100};
// The last rounds of the root where the tree would be very large: what is missed here is missed in each leaf.
inline constexpr Effort kFamilyEffort{
    .climbs = 1600, .growths = 2, .tighten = true, .atoms = 14, .chunks = 800};
// The same where the gap is large: families gain most of it in the first rounds, which are to be short.
inline constexpr Effort kLightFamilyEffort{.climbs = 200, .tighten = true, .atoms = 12, .chunks = 800};

// When a round looks for what.
struct CuttingParameters {
  int levels = 2;                                 // the root's climbs are doubled as often before it gives up
  int most_misses = 3;                            // rounds in a row without a cut
  std::size_t root_window = 12, case_window = 4;  // rounds whose gain is looked at
  double root_gain = 0.02, case_gain = 0.06;      // parts of the gap; less is a stall
  double large_gap = 0.0025;                 // of the length, from which families come before further climbs
  double fair_gap = 0.0004, fair_tree = 20;  // and leaves, from which the root has families for short,
  int fair_nodes = 600;                      // where the instance has as many: leaves of fewer are short
  double large_tree = 300;                   // leaves, from which families are looked for in the tree
  double very_large_tree = 1000;             // and at the root for long
  std::size_t short_family_window = 4, long_family_window = 8;
  double short_family_gain = 0.08, long_family_gain = 0.02;
  int many_leaves = 10;                           // that are done, after which the tree counts as large
  double part_of_root_gap = 0.3;                  // cases with more of it get families of their own
  int case_atoms = 12, case_chunks = 60;          // of these
  double least_margin = 0.25, most_margin = 256;  // of the edges of a whole solution, by steps of 4
};
inline constexpr CuttingParameters kCutting{};

// What a round takes.
struct SeparationParameters {
  std::size_t most_from_pool = 150;  // cuts: the worst ones mend most of the others
  int longest_rest = 4;              // rounds that a cut is left out after solutions that were far from it
  double least_in_pool = 0.02;       // violation of a cut of the pool
  int most_handles_of_node = 12;     // of the combs of a round: near copies of one comb help little
  int most_sets_of_node = 60;        // of the families of a round
  int many_subtours = 10, many_from_pool = 50;  // then no combs are looked for, as the solution is far away
  std::size_t most_subtours = 60;               // of a round
  int near = 6;                                 // neighbours of a node in tours along the solution
  double pull = 3;                              // average edges by which an edge of value 1 is shorter there
};
inline constexpr SeparationParameters kSeparation{};

// Combs by climbing.
struct CombParameters {
  int most_steps = 30;  // of a climb
  int patience = 3;     // steps that gain nothing
};
inline constexpr CombParameters kCombs{};

// Families by small quotients.
struct FamilyParameters {
  int fewest_parts = 5;                             // of a ball: fewer give combs at most
  double most_crossed = 4.6;                        // by the solution, of a set that a family may have
  long most_steps = 400000;                         // of the listing of such sets
  std::size_t most_bonds = 1600, fewest_bonds = 4;  // sets of a chunk: more take the simplex too long
  double least_lack = 0.002;                        // of 1, that a combination is crossed
  int most_times = 6;                               // of a set in a family
  int rounds = 300, pivots = 400;                   // of the simplex of a chunk
  std::size_t many_rows = 60;                       // from which slack ones are dropped
  int passes = 24;                                  // over the centers, until the chunks are used up
  int wide_ball = 4;                                // times as many parts as atoms
  int most_moves = 4000, idle_moves = 40;           // of nodes to other atoms; idle ones change nothing
};
inline constexpr FamilyParameters kFamilies{};

// Strong branching.
struct BranchingParameters {
  std::size_t candidates = 12, finalists = 4;  // that few, then many iterations try
  int few_iterations = 25, many_iterations = 300;
  int fresh_choices = 30;                     // for which a trial is remembered
  double least_part = 1e-4, most_part = 1.2;  // of the gap, that a branch counts for
};
inline constexpr BranchingParameters kBranching{};

// The tree.
struct TreeParameters {
  int window = 8;              // cases at once: more know less of each other's cuts
  double part_of_time = 0.95;  // the rest is for short numbers of the leaves
  double trial = 0.1;          // of the time, before the size of the tree is guessed
  double part_of_file = 0.9;   // of the families that a file may have, from which cases look for no others
};
inline constexpr TreeParameters kTree{};

// Numbers of leaves.
struct LeafParameters {
  Weight fine_scale = 2520, coarse_scale = 840;  // multiples of many fractions
  Weight long_length = 2000000;  // tours from here on have the coarse one: their numbers are long as they are
  Weight most_scaled_weight = 20000000000000;  // so that potentials stay within their limit
  Weight most_scale = 1000000;                 // of a file
  Weight largest_grid = 1000000;
  double least_surplus = 0.005;     // of the program's value over the goal, with which numbers are tried
  int steps = 20, many_steps = 60;  // along trees; many where the surplus is below the next one
  double small_surplus = 0.02;
  // From this many leaves on there are 2 and 4 anchors, with two chains each: where chains meet costs a whole
  // leaf.
  int leaves_of_two_anchors = 24, leaves_of_four_anchors = 128;
  double first_penalty = 0.016, most_penalty = 0.5, least_penalty = 0.001;  // of a change
  double penalty_step = 3, least_step = 2;                                  // between penalties
  int near_rounds = 40;         // of edges and sets of such a program
  int trials = 20, checks = 2;  // of bounds for a leaf that is made like the last, and of what they made
  int coarse_steps = 150;       // of a coarser grid, on which the size of the file depends
  int mending_steps = 30;       // of numbers whose families the file hasn't
};
inline constexpr LeafParameters kLeaves{};
}  // namespace certify
