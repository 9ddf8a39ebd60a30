#include "memory/run_diving.h"

#include <algorithm>

#include "memory/memory_parameters.h"

namespace certify::routes {
namespace {
bool is_elementary(Route run) {
  std::sort(run.begin(), run.end());
  return std::adjacent_find(run.begin(), run.end()) == run.end();
}

// The run that the solution uses most, but not wholly; below 0 where there is none.
int most_used(const RunProgram& program) {
  int best = -1;
  double most = 0;
  for (const auto& [part, run] : program.used()) {
    if (part > 1 - kRunDiving.whole || part <= most || !is_elementary(program.runs()[run])) continue;
    best = run;
    most = part;
  }
  return best;
}
}  // namespace

std::optional<Routes> dive(const SolvedRunCase& here, Weight length, const std::function<bool()>& late) {
  RunProgram program(here.program);
  while (!late()) {
    int round = 0;
    while (round < kRunDiving.rounds && add_light_runs(here, program, kRunDiving.least)) round++;
    if (program.value() > static_cast<double>(length) - 1 + kRunDiving.whole) return std::nullopt;
    const int run = most_used(program);
    if (run < 0) return program.plan();
    program.fix(run);
  }
  return std::nullopt;
}
}  // namespace certify::routes
