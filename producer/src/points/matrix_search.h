// Searches along the rows of a symmetric matrix.
#pragma once
#include "graphs/tour.h"
#include "points/searches.h"

namespace potentials {
class MatrixSearch : public Searches {
 public:
  // The matrix has to outlive the searches.
  explicit MatrixSearch(const certify::Matrix& matrix) : matrix_(matrix), numbers_(matrix.nodes()) {}

  void set_numbers(const std::vector<double>& numbers) override { numbers_ = numbers; }
  void set_labels(const std::vector<int>& labels) override { labels_ = labels; }
  void lightest(int i, int count, std::vector<Near>& found) const override;
  void lightest_around(int i, int count, std::vector<Near>& found) const override;
  Near lightest_outside(int i, double limit) const override;

 private:
  const certify::Matrix& matrix_;
  std::vector<double> numbers_;
  std::vector<int> labels_;
};
}  // namespace potentials
