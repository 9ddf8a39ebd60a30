#include "cuts/quotient_simplex.h"

#include <algorithm>
#include <array>
#include <bit>
#include <numeric>
#include <optional>

// Both builds reckon the same.
#if defined(__x86_64__) && defined(__gnu_linux__) && defined(__GNUC__) && !defined(__clang__) && \
    !defined(__SANITIZE_ADDRESS__) && !defined(__SANITIZE_THREAD__)
#define CERTIFY_CLONES __attribute__((target_clones("avx2", "default")))
#else
#define CERTIFY_CLONES
#endif

namespace certify {
namespace {
constexpr std::size_t kBlock = 8;
constexpr std::size_t kLanes = 16;
constexpr float kMany = 1e30F;
using Block [[gnu::vector_size(32), gnu::aligned(4), gnu::may_alias]] = float;
using Bits [[gnu::vector_size(32), gnu::aligned(4), gnu::may_alias]] = std::uint32_t;

CERTIFY_CLONES void add_times(float* row, const float* from, float factor, std::size_t stride) {
  for (std::size_t k = 0; k < stride; k += kBlock) {
    *reinterpret_cast<Block*>(row + k) += factor * *reinterpret_cast<const Block*>(from + k);
  }
}

CERTIFY_CLONES void lower_costs(float* costs, const float* row, float factor, std::size_t stride) {
  const Block zero = {};
  for (std::size_t k = 0; k < stride; k += kBlock) {
    Block* cost = reinterpret_cast<Block*>(costs + k);
    const Block lower = *cost - factor * *reinterpret_cast<const Block*>(row + k);
    *cost = lower > zero ? lower : zero;
  }
}

// The ratios of costs and negative elements; the least.
CERTIFY_CLONES float fill_ratios(float* ratios, const float* costs, const float* row, std::size_t stride) {
  const Block zero = {};
  const Block one = zero + 1;
  const Block many = zero + kMany;
  Block least = many;
  for (std::size_t k = 0; k < stride; k += kBlock) {
    const Block element = *reinterpret_cast<const Block*>(row + k);
    const Block cost = *reinterpret_cast<const Block*>(costs + k);
    const Block ratio = (element < -1e-4F ? cost : many) / (element < -1e-4F ? -element : one);
    *reinterpret_cast<Block*>(ratios + k) = ratio;
    least = ratio < least ? ratio : least;
  }
  float all = least[0];
  for (std::size_t j = 1; j < kBlock; j++) all = std::min(all, least[j]);
  return all;
}

CERTIFY_CLONES void add_bits(std::uint32_t* row, const std::uint32_t* sets, int a, int b, std::size_t count) {
  for (std::size_t k = 0; k < count; k += kBlock) {
    const Bits set = *reinterpret_cast<const Bits*>(sets + k);
    *reinterpret_cast<Bits*>(row + k) += (set >> a ^ set >> b) & 1;
  }
}

CERTIFY_CLONES void fill(float* cells, const float* rows, int points) {
  const unsigned all = (1U << points) - 1;
  const Block many = Block{} + 1e9F;
  for (unsigned visited = 1; visited < all; visited++) {
    const float* here = cells + std::size_t{visited} * kLanes;
    Block low = many;
    Block high = many;
    for (unsigned rest = visited; rest != 0; rest &= rest - 1) {
      const int i = std::countr_zero(rest);
      const Block* row = reinterpret_cast<const Block*>(rows + static_cast<std::size_t>(i) * kLanes);
      const Block first = here[i] + row[0];
      const Block second = here[i] + row[1];
      low = first < low ? first : low;
      high = second < high ? second : high;
    }
    std::array<float, kLanes> ends;
    *reinterpret_cast<Block*>(ends.data()) = low;
    *reinterpret_cast<Block*>(ends.data() + kBlock) = high;
    for (unsigned rest = all & ~visited; rest != 0; rest &= rest - 1) {
      const int j = std::countr_zero(rest);
      cells[std::size_t{visited | 1U << j} * kLanes + j] = ends[j];
    }
  }
}
}  // namespace

std::size_t in_whole_blocks(std::size_t count) { return (count + kLanes - 1) / kLanes * kLanes; }

void add_between(std::vector<std::uint32_t>& row, const std::vector<std::uint32_t>& sets, int a, int b) {
  add_bits(row.data(), sets.data(), a, b, row.size());
}

void fill_ways(std::vector<float>& cells, const std::vector<float>& rows, int points) {
  for (int j = 0; j < points; j++) {
    cells[(std::size_t{1} << j) * kLanes + j] = rows[static_cast<std::size_t>(points) * kLanes + j];
  }
  fill(cells.data(), rows.data(), points);
}

QuotientSimplex::QuotientSimplex(const std::vector<double>& costs)
    : count_(static_cast<int>(costs.size())),
      stride_(in_whole_blocks(costs.size())),
      costs_(costs.begin(), costs.end()),
      ratios_(stride_, 0),
      column_(costs.size()) {
  costs_.resize(stride_, 0);
  std::iota(column_.begin(), column_.end(), 0);
  rows_.reserve(stride_ * 100);
}

void QuotientSimplex::add_row(const std::vector<std::uint32_t>& times) {
  const std::size_t place = basic_.size();
  rows_.resize(rows_.size() + stride_, 0);
  float value = -1;
  for (int k = 0; k < count_; k++) {
    if (column_[k] < count_) row(place)[k] -= static_cast<float>(times[column_[k]]);
  }
  for (std::size_t r = 0; r < place; r++) {
    if (basic_[r] >= count_ || times[basic_[r]] == 0) continue;
    const float factor = static_cast<float>(times[basic_[r]]);
    value += factor * values_[r];
    add_times(row(place), row(r), factor, stride_);
  }
  values_.push_back(value);
  basic_.push_back(count_ + slacks_++);
}

bool QuotientSimplex::solve(int most_pivots) {
  for (int step = 0; step < most_pivots; step++) {
    const auto worst = std::min_element(values_.begin(), values_.end());
    if (worst == values_.end() || *worst >= -1e-5F) return true;
    const auto leaving = static_cast<std::size_t>(worst - values_.begin());
    const float* elements = row(leaving);
    const float least = fill_ratios(ratios_.data(), costs_.data(), elements, stride_);
    if (least > kMany / 10) return false;
    int entering = -1;
    float size = 0;
    for (int k = 0; k < count_; k++) {
      if (ratios_[k] > least + 2e-6F || -elements[k] <= size) continue;
      size = -elements[k];
      entering = k;
    }
    pivot(leaving, entering);
  }
  return false;
}

void QuotientSimplex::pivot(std::size_t leaving, int entering) {
  float* own = row(leaving);
  const float inverse = 1 / own[entering];
  for (std::size_t k = 0; k < stride_; k++) own[k] *= inverse;
  own[entering] = inverse;
  values_[leaving] *= inverse;
  for (std::size_t r = 0; r < basic_.size(); r++) {
    if (r == leaving) continue;
    float* other = row(r);
    const float factor = other[entering];
    other[entering] = 0;
    if (std::abs(factor) < 1e-6F) continue;
    add_times(other, own, -factor, stride_);
    values_[r] -= factor * values_[leaving];
  }
  const float factor = costs_[entering];
  costs_[entering] = 0;
  lower_costs(costs_.data(), own, factor, stride_);
  objective_ += static_cast<double>(factor) * values_[leaving];
  std::swap(basic_[leaving], column_[entering]);
}

void QuotientSimplex::drop(float slack) {
  std::size_t kept = 0;
  for (std::size_t r = 0; r < basic_.size(); r++) {
    if (basic_[r] >= count_ && values_[r] > slack) continue;
    if (kept != r) {
      std::copy_n(row(r), stride_, row(kept));
      values_[kept] = values_[r];
      basic_[kept] = basic_[r];
    }
    kept++;
  }
  rows_.resize(kept * stride_);
  values_.resize(kept);
  basic_.resize(kept);
}

std::vector<std::pair<int, double>> QuotientSimplex::solution() const {
  std::vector<std::pair<int, double>> solution;
  for (std::size_t r = 0; r < basic_.size(); r++) {
    if (basic_[r] < count_ && values_[r] > 1e-5F) solution.emplace_back(basic_[r], values_[r]);
  }
  return solution;
}

std::vector<int> QuotientSimplex::tight_rows() const {
  std::vector<int> rows;
  for (const int id : column_) {
    if (id >= count_) rows.push_back(id - count_);
  }
  return rows;
}
}  // namespace certify
