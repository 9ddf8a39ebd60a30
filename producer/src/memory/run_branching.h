// Strong branching on sets, with the program over runs: pairs, all customers, and sets that the search for
// capacity cuts met.
//
// Those that promise most by the program alone are tried once more with a few rounds of new runs. Source: D.
// Pecin, A. Pessoa, M. Poggi and E. Uchoa, Improved branch-cut-and-price for capacitated vehicle routing,
// Mathematical Programming Computation 9 (2017).
#pragma once
#include "memory/label_search.h"
#include "memory/run_program.h"
#include "routes/set_branching.h"

namespace certify::routes {
// A case whose program is solved, and the value that is enough.
struct SolvedRunCase {
  const CvrpInstance& instance;
  const Loads& loads;
  const RunProgram& program;
  LabelSearch& labels;
  double goal;
};

// Runs join the program by few labels, and it is solved. False where none does, or the least one weighs
// nearly 0.
bool add_light_runs(const SolvedRunCase& here, RunProgram& program, double least);
// Nothing where the solution crosses each such set an even number of times.
std::optional<SetBranch> choose_run_branch(const SolvedRunCase& here,
                                           const std::vector<CapacityCut>& between);
}  // namespace certify::routes
