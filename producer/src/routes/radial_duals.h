// Duals that need no linear program: each customer pays its part of a vehicle for the way there and back.
//
// Where no detour is shorter than the way itself, no walk weighs less than 0, and the bound is what customers
// pay. Source: M. Haimovich and A. H. G. Rinnooy Kan, Bounds and heuristics for capacitated routing problems
// (1985).
#pragma once
#include "routes/walk_bound.h"

namespace certify::routes {
Duals radial_duals(const CvrpInstance& instance);
}  // namespace certify::routes
