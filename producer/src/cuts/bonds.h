// The bonds of a small graph of atoms: sets that are connected, and whose complement is too. Those that are
// crossed little, by a search over the sides of one atom after the other, with a bound.
#pragma once
#include <array>
#include <cstdint>
#include <utility>
#include <vector>

namespace certify {
constexpr int kMostChunkAtoms = 16;
// The values between atoms, the same in both directions.
using AtomGraph = std::array<std::array<double, kMostChunkAtoms>, kMostChunkAtoms>;

// What is crossed, and the atoms inside; the last atom is outside. At most as many bonds as this, the least
// ones.
std::vector<std::pair<double, std::uint32_t>> bonds_of(const AtomGraph& graph, int atoms, std::size_t most);
}  // namespace certify
