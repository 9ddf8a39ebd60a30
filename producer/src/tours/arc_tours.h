// Good tours of an ATSP through all fixed arcs, each of whose paths is one node here: the cycles of the
// cheapest assignment are patched to a tour, and tours by chance are shortened, all by exchanges of arcs with
// kicks. Source: R. Karp, A patching algorithm for the nonsymmetric traveling-salesman problem (1979).
#pragma once
#include <functional>

#include "reading/instance.h"

namespace certify {
struct ArcTours {
  Tour best;
  std::vector<Tour> further;
  std::vector<Pair> arcs;  // likely ones
};

// Throws Refusal where no tour uses all fixed arcs. The patience is the number of kicks for each node.
ArcTours find_arc_tours(const Instance& instance, int runs, int patience, std::uint64_t seed,
                        const std::function<bool()>& stop);
// The maximal paths of these arcs, each node in one. Throws Refusal where no tour uses all arcs.
std::vector<std::vector<int>> arc_paths_of(const std::vector<Pair>& fixed, int nodes);
// The tour that cycles are joined to, two by two as is cheapest. next has the node behind each.
Tour patched(const Matrix& weights, std::vector<int> next);
}  // namespace certify
