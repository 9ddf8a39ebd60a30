// Moves nodes between the atoms of a cut while the solution then crosses it less. No atom is emptied, so a
// tour crosses the new sets as often as the old ones. Source: D. Applegate, R. Bixby, V. Chvatal and W. Cook,
// The Traveling Salesman Problem (2006), on tightening.
#pragma once
#include <optional>

#include "cuts/cut_pool.h"

namespace certify {
// The sets that are crossed less, in the order of the cut. Nothing where no move helps.
std::optional<std::vector<NodeSet>> tightened(const Cut& cut, const Graph& graph);
}  // namespace certify
