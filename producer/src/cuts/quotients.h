// Quotient cuts: families of any sets that a solution of the linear program crosses too little. For a chunk,
// the least combination of its bonds is looked for that each tour of the atoms crosses once. The tours come
// by local search from those at hand, and where that finds none by a dynamic program over the atoms of the
// combination. Source: D. Applegate, R. Bixby, V. Chvatal and W. Cook, The Traveling Salesman Problem (2006),
// on local cuts.
#pragma once
#include <cstdint>
#include <unordered_set>

#include "cuts/bonds.h"
#include "cuts/chunks.h"
#include "cuts/families.h"
#include "running/parameters.h"

namespace certify {
class QuotientSearch {
 public:
  // Chunks that gave nothing are known by their hash. The effort says how many chunks of how many atoms there
  // are.
  QuotientSearch(const Graph& graph, const std::vector<const NodeSet*>& tight, const Tour& tour,
                 Random& random, std::unordered_set<std::uint64_t>& tried, const Effort& effort);
  // Families, the deepest first.
  std::vector<Family> find();

 private:
  // A chunk around a part, with the values between its atoms.
  struct Trial {
    int center;
    Random random;
    std::optional<Chunk> chunk{};
    AtomGraph between{};
    std::uint64_t hash = 0;
    std::optional<Family> family{};
  };
  void begin(Trial& trial) const;
  AtomGraph graph_of(const Chunk& chunk) const;
  std::uint64_t hash_of(const Chunk& chunk, const AtomGraph& between) const;
  std::optional<Family> family_of(Trial& trial) const;
  std::optional<Family> rounded(const Chunk& chunk, const AtomGraph& between,
                                const std::vector<std::pair<std::uint32_t, double>>& multipliers) const;
  std::vector<NodeSet> sets_of(const Chunk& chunk,
                               const std::vector<std::pair<std::uint32_t, int>>& sets) const;

  const Graph& graph_;
  const Tour tour_;
  Random& random_;
  std::unordered_set<std::uint64_t>& tried_;
  const Effort& effort_;
  Chunks chunks_;
};
}  // namespace certify
