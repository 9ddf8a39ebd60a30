// The rule of the dual simplex by which a row leaves: steepest edge, whose weights are kept from one solution
// to the next. Clp forgets them, and begins with 1 for each row. A weight belongs to a basic variable and
// stays right where rows with a basic slack join or go, and where columns that aren't basic do. One that
// isn't known is computed.
// Source: J. Forrest and D. Goldfarb, Steepest-edge simplex algorithms for linear programming, Mathematical
// Programming 57 (1992).
#pragma once
#include <coin/ClpDualRowSteepest.hpp>
#include <coin/ClpSimplex.hpp>
#include <vector>

namespace certify {
// Of the basic columns and of the slacks of rows; 0 where it isn't known.
struct EdgeWeights {
  std::vector<double> columns, rows;
  bool frozen = false;  // solutions leave them as they are
};

class SteepestEdge : public ClpDualRowSteepest {
 public:
  explicit SteepestEdge(EdgeWeights& known) : ClpDualRowSteepest(0), known_(&known) {}
  void saveWeights(ClpSimplex* model, int mode) override;
  ClpDualRowPivot* clone(bool copy_data) const override;

 private:
  double& known_of(int variable) const;
  double computed(int row);
  void take_known();
  void keep();
  EdgeWeights* known_;
};
}  // namespace certify
