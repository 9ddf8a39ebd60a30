// A plan by diving: runs that the solution uses most are fixed one after the other, and new runs join
// between.
//
// Source: R. Sadykov, F. Vanderbeck, A. Pessoa, I. Tahiri and E. Uchoa, Primal heuristics for branch and
// price, INFORMS Journal on Computing 31 (2019).
#pragma once
#include <functional>

#include "memory/run_branching.h"

namespace certify::routes {
// A plan shorter than the length, if the dive ends in one. It begins with the solution of the case's program,
// and ends where late() says so.
std::optional<Routes> dive(const SolvedRunCase& here, Weight length, const std::function<bool()>& late);
}  // namespace certify::routes
