#include "tree/steepest_edge.h"

#include <algorithm>
#include <coin/ClpFactorization.hpp>

namespace certify {
namespace {
constexpr double kLeastWeight = 1e-4;
}  // namespace

ClpDualRowPivot* SteepestEdge::clone(bool copy_data) const {
  return copy_data ? new SteepestEdge(*this) : new SteepestEdge(*known_);
}

double& SteepestEdge::known_of(int variable) const {
  const int columns = model_->numberColumns();
  return variable < columns ? known_->columns[variable] : known_->rows[variable - columns];
}

// The square of the norm of a row of the inverse of the basis.
double SteepestEdge::computed(int row) {
  CoinIndexedVector spare;
  spare.reserve(model_->numberRows() + model_->factorization()->maximumPivots());
  double* const values = alternateWeights_->denseVector();
  values[0] = 1;
  alternateWeights_->getIndices()[0] = row;
  alternateWeights_->setNumElements(1);
  alternateWeights_->setPackedMode(true);
  model_->factorization()->updateColumnTranspose(&spare, alternateWeights_);
  double sum = 0;
  for (int k = 0; k < alternateWeights_->getNumElements(); k++) {
    sum += values[k] * values[k];
    values[k] = 0;
  }
  alternateWeights_->setNumElements(0);
  alternateWeights_->setPackedMode(false);
  return std::max(sum, kLeastWeight);
}

void SteepestEdge::take_known() {
  for (int row = 0; row < model_->numberRows(); row++) {
    const double known = known_of(model_->pivotVariable()[row]);
    weights_[row] = known > 0 ? known : computed(row);
  }
}

void SteepestEdge::keep() {
  known_->columns.assign(model_->numberColumns(), 0);
  known_->rows.assign(model_->numberRows(), 0);
  for (int row = 0; row < model_->numberRows(); row++) known_of(model_->pivotVariable()[row]) = weights_[row];
}

// Clp calls this with 1 before each factorization and at the end, and with 2 after a factorization: the first
// time it then sets each weight to 1.
void SteepestEdge::saveWeights(ClpSimplex* model, int mode) {
  const bool known = weights_ != nullptr && state_ != -1;
  const bool fits = known_->rows.size() == static_cast<std::size_t>(model->numberRows()) &&
                    known_->columns.size() == static_cast<std::size_t>(model->numberColumns());
  if (mode == 1 && known && state_ == 0 && fits && !known_->frozen) keep();
  ClpDualRowSteepest::saveWeights(model, mode);
  if (mode != 1 && !known && state_ == 0 && fits) take_known();
}
}  // namespace certify
