// Chunks for quotient cuts: the support graph is shrunk, by paths of whole edges and sets that are crossed
// twice, a ball of its parts is contracted to some atoms, and the rest of the graph is one atom more. Source:
// D. Applegate, R. Bixby, V. Chvatal and W. Cook, The Traveling Salesman Problem (2006), on local cuts.
#pragma once
#include <optional>

#include "cuts/support.h"
#include "running/random.h"

namespace certify {
struct Chunk {
  std::vector<int> atom_of;  // of each node; the last atom is the rest
  int atoms = 0;
  std::vector<char> is_single;  // whether an atom is one node
};

class Chunks {
 public:
  // Tight sets are crossed twice by the solution.
  Chunks(const Graph& graph, const std::vector<const NodeSet*>& tight, Random& random)
      : graph_(graph), tight_(tight), random_(random), nodes_(static_cast<int>(graph.size())) {}
  // Shrinks the graph anew, the more the larger the kind, from 0 to 3, and by tight sets of at most as many
  // nodes.
  void shrink(int kind, std::size_t largest);
  // The parts of the shrunk graph with an edge in part, in a random order.
  std::vector<int> centers();
  // A ball of this many parts around one, and the rest, as atoms. Nothing if the ball is too small.
  std::optional<Chunk> around(int center, int atoms, int ball, Random& random) const;

 private:
  // Parts of the ball, and what they have in common while they are contracted.
  struct Ball {
    std::vector<int> parts;
    std::vector<std::vector<double>> joined;
    std::vector<double> crossed;
    std::vector<int> group;  // the part that each was contracted to
    bool whole = false;      // there is no rest
  };
  void take_tight_sets(std::size_t largest);
  void take_path(int start, bool one);
  int end_of_path(int start) const;
  void add_part(NodeSet part);
  void link_parts();
  std::vector<int> grow(int center, int size, Random& random) const;
  Ball ball_of(const std::vector<int>& parts) const;
  static bool contract(Ball& ball, int atoms, Random& random);
  Chunk chunk_of(const Ball& ball) const;

  const Graph& graph_;
  const std::vector<const NodeSet*>& tight_;
  Random& random_;
  int nodes_;
  std::vector<std::optional<int>> part_of_;
  std::vector<NodeSet> parts_;
  Graph links_;  // between parts
  std::vector<double> degree_;
};
}  // namespace certify
