// The linear programs of quotient cuts: least costs of multipliers so that each row sums to at least 1, by a
// small dense dual simplex in floats. What it finds is rounded to whole multipliers and checked exactly, so
// its errors do no harm. The loops over rows are built for AVX2 too, and the loader picks those that the
// machine can run.
#pragma once
#include <cstdint>
#include <utility>
#include <vector>

namespace certify {
class QuotientSimplex {
 public:
  explicit QuotientSimplex(const std::vector<double>& costs);
  // The sum over the multipliers, each as often as this, is at least 1. Rows count from 0 on.
  void add_row(const std::vector<std::uint32_t>& times);
  // False where it gave up.
  bool solve(int most_pivots);
  // Drops rows that are more than this above 1.
  void drop(float slack);
  std::size_t rows() const { return basic_.size(); }
  double objective() const { return objective_; }
  // The multipliers that aren't 0.
  std::vector<std::pair<int, double>> solution() const;
  std::vector<int> tight_rows() const;

 private:
  void pivot(std::size_t leaving, int entering);
  float* row(std::size_t place) { return &rows_[place * stride_]; }

  int count_, slacks_ = 0;
  std::size_t stride_;  // of a row, in whole blocks
  std::vector<float> costs_, ratios_, rows_, values_;
  std::vector<int> column_, basic_;  // multipliers by their numbers, and slacks of rows behind them
  double objective_ = 0;
};

// For each set of atoms whether it is between two atoms: adds 1 to its place. There is room for whole blocks.
void add_between(std::vector<std::uint32_t>& row, const std::vector<std::uint32_t>& sets, int a, int b);
std::size_t in_whole_blocks(std::size_t count);
// The shortest ways through each set of up to 15 points that end in each of them, from a start that rows[p]
// has the distances of. A row has 16 cells.
void fill_ways(std::vector<float>& cells, const std::vector<float>& rows, int points);
}  // namespace certify
