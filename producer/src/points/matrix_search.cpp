#include "points/matrix_search.h"

#include <limits>

namespace potentials {
void MatrixSearch::lightest(int i, int count, std::vector<Near>& found) const {
  found.clear();
  double limit = std::numeric_limits<double>::infinity();
  const certify::Weight* row = matrix_.row(i);
  for (int j = 0; j < matrix_.nodes(); j++) {
    const double weight = static_cast<double>(row[j]) + numbers_[j] + extra(j);
    if (weight < limit && j != i) limit = keep(found, count, {weight, j});
  }
}

void MatrixSearch::lightest_around(int /*i*/, int /*count*/, std::vector<Near>& found) const {
  found.clear();
}

Near MatrixSearch::lightest_outside(int i, double limit) const {
  Near best{limit, -1};
  const certify::Weight* row = matrix_.row(i);
  for (int j = 0; j < matrix_.nodes(); j++) {
    const double weight = static_cast<double>(row[j]) + numbers_[j] + extra(j);
    if (weight < best.weight && labels_[j] != labels_[i]) best = {weight, j};
  }
  return best;
}
}  // namespace potentials
