// The whole numbers of a leaf, by duals of a large linear program, and their bound by the least 1-tree among
// all pairs of points. Subtours need no multipliers, since a tree over the nodes 2.. keeps sets without node
// 1 by itself. Source: M. Held and R. Karp, The traveling-salesman problem and minimum spanning trees (1970).
#pragma once
#include "spanning/exact_tree.h"
#include "sparse/sparse_program.h"
#include "tree/certificate.h"

namespace sparse {
using certify::Numbers;
using certify::Value;

class SparseLeaf {
 public:
  SparseLeaf(const Problem& problem, const CutPool& pool, double average);
  Weight scale() const { return scale_; }
  // Potentials alone, as an ascent finds them.
  Numbers alone(const std::vector<double>& potentials) const { return {whole(potentials), {}}; }
  // The rows of the combs with the largest duals, in order: as many as a file may have.
  std::vector<std::size_t> rows_of_file(const SparseProgram& program) const;
  // The duals of the program, of the rows of a file.
  Numbers extract(const SparseProgram& program) const;
  // The bound times the scale. Likely edges limit the searches.
  Value value(const Numbers& numbers, const std::vector<Pair>& likely);
  Weight bound_of(Value value) const { return certify::rounded_up(value, scale_); }
  // The edges of the last 1-tree.
  const std::vector<potentials::Edge>& tree() const { return tree_; }
  // A file of one leaf, in the order of the instance's nodes.
  certify::Certificate certificate(const Numbers& numbers) const;

 private:
  void turn_inside_out(const SparseProgram& program, std::vector<double>& potentials) const;
  std::vector<Weight> whole(const std::vector<double>& potentials) const;

  const Problem& problem_;
  const CutPool& pool_;
  Weight scale_ = 1;
  std::vector<potentials::Edge> tree_;
};
}  // namespace sparse
