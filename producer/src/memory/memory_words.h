// What a run remembers, as one word: each customer has a bit of its own for each thing that it keeps.
//
// These are the customers that it remembers, and the rows that it keeps, also those without a multiplier. So
// a load, a customer and a word are a state as the checker counts them. To leave a row out, leave it out of
// the memory.
#pragma once
#include <cstdint>
#include <optional>

#include "memory/memory.h"

namespace certify::routes {
using Word = std::uint64_t;

// Multipliers are whole numbers or doubles.
template <typename W>
class MemoryWords {
 public:
  static constexpr int kMost = 64;  // things that a customer keeps
  // Throws Refusal where a customer keeps more.
  MemoryWords(const Memory& memory, const std::map<NodeSet, W>& multipliers);
  // The word of a run that begins with a customer.
  Word first(int customer) const { return toggled_[customer]; }
  bool remembers(int customer, Word word, int other) const {
    return (word & step(customer, other).forbidden) != 0;
  }
  // The word after one more customer, which isn't remembered, and what is paid for rows there.
  W go_on(int customer, int to, Word& word) const {
    const Step& taken = step(customer, to);
    const W cost = cost_of(customer, word & taken.paid);
    Word next = taken.last;
    for (Word passed = word & taken.passed; passed != 0; passed &= passed - 1) {
      next |= Word{1} << places_[taken.places + std::countr_zero(passed)];
    }
    word = next ^ toggled_[to];
    return cost;
  }
  // What a run may pay more than another one to the same customer, for rows that it alone has open. Nothing
  // where it remembers a customer that the other one doesn't.
  std::optional<W> more_than(int customer, Word word, Word other) const {
    const Word alone = word & ~other;
    if ((alone & remembered_[customer]) != 0) return std::nullopt;
    return cost_of(customer, alone);
  }

 private:
  struct Step {
    Word forbidden = 0;      // the bit of the next customer
    Word paid = 0;           // of the rows whose sets have it
    Word passed = 0;         // of what it keeps too
    Word last = 0;           // its own bit of the customer before
    std::size_t places = 0;  // where its bits of what passes are listed
  };
  // For each customer the things that it keeps: customers, and rows.
  struct Things {
    std::vector<std::vector<int>> kept;
    std::vector<std::vector<signed char>> place_of;  // of a thing among them, or below 0
  };
  const Step& step(int customer, int to) const {
    return steps_[static_cast<std::size_t>(customer) * nodes_ + to];
  }
  W cost_of(int customer, Word rows) const {
    W sum = 0;
    for (; rows != 0; rows &= rows - 1) {
      sum += costs_[static_cast<std::size_t>(customer) * kMost + std::countr_zero(rows)];
    }
    return sum;
  }
  void list_step(const Things& things, const std::vector<const SubsetRow*>& rows, int customer, int to);

  int nodes_;
  std::vector<Word> remembered_, toggled_;  // a customer's bits of customers, and of rows whose sets have it
  std::vector<W> costs_;                    // by customers and their bits
  std::vector<Step> steps_;
  std::vector<unsigned char> places_;
};
extern template class MemoryWords<double>;
extern template class MemoryWords<Weight>;
}  // namespace certify::routes
