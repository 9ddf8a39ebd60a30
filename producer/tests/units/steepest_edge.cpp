// Tests that the weights of steepest edge are kept.
#include "tree/steepest_edge.h"

#include <cmath>
#include <numeric>

#include "fixtures.h"

using namespace certify;

namespace {
// Rows of random columns, which have to reach as much.
void add_rows(ClpSimplex& program, EdgeWeights& known, Random& random, int count) {
  for (int row = 0; row < count; row++) {
    std::vector<int> columns;
    std::vector<double> elements;
    for (int column = 0; column < program.numberColumns(); column++) {
      if (random.below(4) != 0) continue;
      columns.push_back(column);
      elements.push_back(1 + static_cast<double>(random.below(3)));
    }
    program.addRow(static_cast<int>(columns.size()), columns.data(), elements.data(), 5, COIN_DBL_MAX);
    known.rows.push_back(0);
  }
}

// Whether the weight of each basic variable is the square of the norm of its row of the inverse.
bool are_right(ClpSimplex& program, const EdgeWeights& known) {
  const int columns = program.numberColumns(), rows = program.numberRows();
  bool right = true;
  program.startup(0);
  for (int row = 0; row < rows; row++) {
    std::vector<double> inverse(rows);
    program.getBInvRow(row, inverse.data());
    const double sum = std::inner_product(inverse.begin(), inverse.end(), inverse.begin(), 0.0);
    const int variable = program.pivotVariable()[row];
    const double weight = variable < columns ? known.columns[variable] : known.rows[variable - columns];
    right = right && std::abs(weight - sum) < 1e-6 * sum;
  }
  program.finish();
  return right;
}
}  // namespace

TEST_CASE("weights of steepest edge are kept") {
  Random random(3);
  ClpSimplex program;
  EdgeWeights known;
  program.setLogLevel(0);
  program.scaling(0);
  program.resize(0, 40);
  for (int column = 0; column < 40; column++) {
    program.setColumnBounds(column, 0, 1);
    program.setObjectiveCoefficient(column, 1 + static_cast<double>(random.below(50)));
  }
  known.columns.assign(40, 0);
  SteepestEdge rule(known);
  program.setDualRowPivotAlgorithm(rule);
  for (int round = 0; round < 3; round++) {
    add_rows(program, known, random, 10);
    program.dual(0);
    REQUIRE(program.status() == 0);
    CHECK(are_right(program, known));  // after a round of rows
  }
  known.frozen = true;
  const std::vector<double> before = known.columns;
  add_rows(program, known, random, 5);
  program.dual(0);
  CHECK(known.columns == before);  // frozen weights stay
}
