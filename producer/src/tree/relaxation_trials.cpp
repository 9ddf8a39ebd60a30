#include <algorithm>
#include <array>

#include "running/threads.h"
#include "tree/relaxation.h"

namespace certify {
namespace {
constexpr std::size_t kFixingsOfCopy = 4;  // a copy of the program takes as long as a short trial

// A copy of a program, on which bounds of single columns are tried, each from the same solution.
class Probe {
 public:
  Probe(const ClpSimplex& program, int iterations) : program_(program) {
    const int rows = program_.numberRows(), columns = program_.numberColumns();
    status_.assign(program_.statusArray(), program_.statusArray() + rows + columns);
    for (std::size_t k = 0; k < places().size(); k++) {
      saved_.emplace_back(places()[k], places()[k] + (k % 2 == 0 ? columns : rows));
    }
    program_.setMaximumIterations(iterations);
  }
  // The objective where a column has this value.
  double objective(int column, double value) {
    program_.setColumnBounds(column, value, value);
    program_.dual(0);
    const double reached = program_.objectiveValue();
    program_.setColumnBounds(column, 0, 1);
    std::copy(status_.begin(), status_.end(), program_.statusArray());
    for (std::size_t k = 0; k < saved_.size(); k++)
      std::copy(saved_[k].begin(), saved_[k].end(), places()[k]);
    return reached;
  }

 private:
  std::array<double*, 4> places() {
    return {program_.primalColumnSolution(), program_.primalRowSolution(), program_.dualColumnSolution(),
            program_.dualRowSolution()};
  }
  ClpSimplex program_;
  std::vector<unsigned char> status_;
  std::vector<std::vector<double>> saved_;
};
}  // namespace

std::vector<double> Relaxation::gains(const std::vector<Fixing>& fixings, int iterations) const {
  std::vector<double> gains(fixings.size());
  edge_weights_.frozen = true;
  const std::size_t copies = (fixings.size() + kFixingsOfCopy - 1) / kFixingsOfCopy;
  for_each_at_once(copies, [&](std::size_t copy) {
    Probe probe(program_, iterations);
    const std::size_t last = std::min(fixings.size(), (copy + 1) * kFixingsOfCopy);
    for (std::size_t k = copy * kFixingsOfCopy; k < last; k++) {
      const double objective = probe.objective(fixings[k].column + kElastic, fixings[k].value);
      gains[k] = std::max(0.0, objective * unit_ + offset_ - value_);
    }
  });
  edge_weights_.frozen = false;
  return gains;
}
}  // namespace certify
