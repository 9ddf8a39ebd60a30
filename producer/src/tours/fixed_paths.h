// Costs and paths by which searches for a tour keep fixed pairs.
#pragma once
#include "graphs/tour.h"

namespace certify {
// A tour through all fixed pairs, whose costs are lowered here. Exact for up to eight nodes.
Matrix with_fixed_lowered(const Matrix& weights, const std::vector<Pair>& fixed);
// The costs less the potentials of both nodes, which changes the lengths of all tours alike.
Matrix with_potentials(Matrix costs, const std::vector<Weight>& potentials);
// The maximal paths of these pairs, each node in one. Throws Refusal where no tour uses all pairs.
std::vector<std::vector<int>> paths_of(const std::vector<Pair>& fixed, int nodes);
}  // namespace certify
