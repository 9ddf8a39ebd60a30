// The least 1-tree among all pairs of nodes under cost(i, j) + p(i) + p(j), with all fixed edges in it. Of
// points pairs may weigh more by surcharges: what weighs enough without them needs no look at them.
//
// Of points by O. Boruvka's method (1926), where each search is one of the k-d tree. Of a matrix by that of
// R. C. Prim (1957).
#pragma once
#include "points/problem.h"
#include "spanning/surcharges.h"
#include "spanning/value.h"

namespace potentials {
using PairSurcharges = Surcharges<double>;

// `some` are edges that limit the searches: those of a good candidate graph, or none. The last two edges are
// those at the special node.
std::vector<Edge> exact_tree(const Problem& problem, const std::vector<double>& numbers,
                             const std::vector<Edge>& some, PairSurcharges* surcharges = nullptr);
// The bound that a least 1-tree gives.
double bound_of(const Problem& problem, const std::vector<Edge>& one_tree,
                const std::vector<double>& numbers);
// What edges weigh in all by whole costs and numbers: scale * cost(i, j) + p(i) + p(j).
certify::Value whole_sum(const Problem& problem, const std::vector<Edge>& edges,
                         const std::vector<certify::Weight>& numbers, certify::Weight scale);
}  // namespace potentials
