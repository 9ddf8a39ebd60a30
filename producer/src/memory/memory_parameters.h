// The numbers that the search by runs with a memory is tuned by.
//
// None of them changes what a certificate says.
#pragma once
#include <cstddef>
#include <cstdint>

#include "graphs/tour.h"

namespace certify::routes {
// What customers remember. Each thing is a bit of a state, and the checker has to keep all states.
struct MemoryParameters {
  int near = 3;                             // nearest customers that each remembers at first
  int bits = 20, least_bits = 6;            // customers and rows that a customer keeps in one case
  int fewer_bits = 4;                       // less, where there are too many states
  int file_bits = 64;                       // in a file
  std::size_t most_rows = 250;              // of a case
  std::size_t states = 3000000;             // that the root should keep
  std::size_t grown_states = 1000000;       // of the root: with more, the tree has the root's memory and rows
  std::size_t most_states = 6000000;        // of a leaf by its own memory
  std::size_t file_states = 10000000;       // by the file's, which is the checker's limit
  std::size_t most_coarse_states = 500000;  // of a leaf whose numbers are made shorter
};
inline constexpr MemoryParameters kMemory{};

// Subset rows.
struct SubsetRowParameters {
  double least_violation = 0.04;
  std::size_t most_at_once = 30;
  std::size_t few_triples = 10;   // with fewer new rows of three, those of five are looked for
  std::size_t grown = 60;         // triples that grow to five customers
  double least_of_triple = -0.3;  // the violation of such a triple
  int most_of_customer = 4;       // rows of a round that have one customer
  int slack_solutions = 2;        // a row that is slack in as many in a row is dropped
  int many_sets = 5;              // with as many fresh capacity cuts no rows are looked for
  int much_memory = 15;           // nor with as many customers that remember more
};
inline constexpr SubsetRowParameters kSubsetRows{};

// Runs that join the linear program.
struct RunParameters {
  int first_labels = 2, more_labels = 12;  // that go on from a load and customer, before all do
  int few_links = 14;                      // from a customer, for the first labels
  std::size_t at_once = 120, at_once_of_all = 200;
  int of_end = 8;                                    // that end with one customer
  double least = 1e-6, enough = 1e-3, exact = 1e-4;  // below 0: of a run, of few labels, of all labels
  std::size_t labels = 5000000;                      // of one search
  std::size_t kept = 2500;                           // of more, those that cost too much are dropped
  double far = 0.03;                                 // so much too much, in parts of a route
};
inline constexpr RunParameters kRuns{};

// How a case goes on with runs and cuts.
struct RunRounds {
  int most;
  std::size_t window;  // over as many rounds the program has to gain
  double least_gain;   // in parts of its value
};
inline constexpr RunRounds kRunRoot{60, 5, 1.5e-4};
inline constexpr RunRounds kRunTree{15, 3, 3e-4};

// Trials of branches.
struct RunBranchingParameters {
  std::size_t tried = 40, priced = 4;
  int iterations = 80;  // of the dual simplex, before new runs are tried
  int rounds = 6;       // of runs
  double margin = 0.1;  // from an even number of crossings
};
inline constexpr RunBranchingParameters kRunBranching{};

// Dives for a plan.
struct RunDivingParameters {
  int rounds = 8;       // of runs, after each run that is fixed
  double least = 1e-2;  // below 0, of a run that is worth a further round
  double whole = 1e-5;  // near 1, of a run that is used wholly
};
inline constexpr RunDivingParameters kRunDiving{};

// The tree, and the whole numbers of a leaf.
struct RunLeafParameters {
  double large_gap = 0.004;  // of the length: then routes are looked for once more
  Weight scale = 252000;     // a multiple of many fractions
  double margin = 0.004;     // of a bound over the target, which rounding mostly leaves above it
  double ceiling = 0.01;     // up to as much lengths that rounding leaves above 0 are won back
  double tolerance = 0.05;   // between the bound and the value of the program
};
inline constexpr RunLeafParameters kRunLeaves{};
}  // namespace certify::routes
