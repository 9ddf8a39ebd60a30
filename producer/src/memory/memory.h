// What runs remember of the customers that they served.
//
// A run goes from the depot through customers and back, as a walk does. But it may not go to a customer that
// its last one remembers, and it pays for subset rows: a row is open after an odd number of customers of its
// set, each second one pays, and a customer that doesn't keep the row forgets that it is open. So all routes
// of a plan together pay for a row at most half as often as its set has customers. Sources: R. Baldacci, A.
// Mingozzi and R. Roberti, New route relaxation and pricing strategies for the vehicle routing problem,
// Operations Research 59 (2011); M. Jepsen, B. Petersen, S. Spoorendonk and D. Pisinger, Subset-row
// inequalities applied to the vehicle-routing problem with time windows, Operations Research 56 (2008); D.
// Pecin, A. Pessoa, M. Poggi and E. Uchoa, Improved branch-cut-and-price for capacitated vehicle routing,
// Mathematical Programming Computation 9 (2017).
#pragma once
#include <array>
#include <bit>
#include <cstdint>

#include "routes/walk_bound.h"

namespace certify::routes {
// A set of whole numbers below kMost: of customers, or of the places of rows.
class Bits {
 public:
  static constexpr int kMost = 256;
  bool has(int k) const { return (words_[k / 64] >> (k % 64) & 1) != 0; }
  void add(int k) { words_[k / 64] |= std::uint64_t{1} << (k % 64); }
  void remove(int k) { words_[k / 64] &= ~(std::uint64_t{1} << (k % 64)); }
  int count() const {
    int count = 0;
    for (const std::uint64_t word : words_) count += std::popcount(word);
    return count;
  }
  bool is_within(const Bits& other) const {
    std::uint64_t more = 0;
    for (std::size_t k = 0; k < words_.size(); k++) more |= words_[k] & ~other.words_[k];
    return more == 0;
  }
  Bits operator&(const Bits& other) const {
    return joined(other, [](auto a, auto b) { return a & b; });
  }
  Bits operator|(const Bits& other) const {
    return joined(other, [](auto a, auto b) { return a | b; });
  }
  Bits without(const Bits& other) const {
    return joined(other, [](auto a, auto b) { return a & ~b; });
  }
  auto operator<=>(const Bits&) const = default;
  // take(k) for each number, the least first.
  template <class Take>
  void each(const Take& take) const {
    for (std::size_t k = 0; k < words_.size(); k++) {
      for (std::uint64_t word = words_[k]; word != 0; word &= word - 1) {
        take(static_cast<int>(k) * 64 + std::countr_zero(word));
      }
    }
  }

 private:
  template <class Join>
  Bits joined(const Bits& other, const Join& join) const {
    Bits all;
    for (std::size_t k = 0; k < words_.size(); k++) all.words_[k] = join(words_[k], other.words_[k]);
    return all;
  }
  std::array<std::uint64_t, kMost / 64> words_{};
};

struct SubsetRow {
  NodeSet set;   // two customers or more, in their order
  Bits inside;   // those of the set
  Bits keepers;  // and the further ones that keep the row
  int half() const { return static_cast<int>(set.size()) / 2; }
};
SubsetRow row_of(const NodeSet& set);

struct Memory {
  std::vector<Bits> near;         // the customers that each remembers
  std::vector<SubsetRow> rows{};  // each of another set
  // The customers and rows that a customer keeps.
  int kept_at(int customer) const;
  // The row of a set, or below 0.
  int place_of(const NodeSet& set) const;
  // The same but for the rows that these multipliers leave out.
  template <typename W>
  Memory with_rows_of(const std::map<NodeSet, W>& multipliers) const {
    Memory some{near};
    for (const SubsetRow& row : rows) {
      if (multipliers.contains(row.set)) some.rows.push_back(row);
    }
    return some;
  }
  // Customers that keep more than this forget rows, those with the least multipliers first, and then
  // customers. A row's own customers don't forget it.
  void trim(int most, const std::map<NodeSet, double>& multipliers);
};

// Each customer remembers as many nearest ones.
Memory nearest_memory(const CvrpInstance& instance, int near);
// How often a run pays for a row.
int payments(const SubsetRow& row, const Route& run);
// Whether no customer comes where it is remembered, or twice in a row.
bool is_run(const Memory& memory, const Route& run);

// Potentials of nodes, multipliers of sets, and those of rows, by their sets: at least 0.
template <typename W>
struct RunNumbers : SetNumbers<W> {
  std::map<NodeSet, W> rows;
};
using RunDuals = RunNumbers<double>;
using RunLeaf = RunNumbers<Weight>;
}  // namespace certify::routes
