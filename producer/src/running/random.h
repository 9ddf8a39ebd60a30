// Random numbers that are the same for the same seed, on every machine.
// Source: S. Vigna, An experimental exploration of Marsaglia's xorshift generators, scrambled (2016).
#pragma once
#include <cstdint>
#include <utility>
#include <vector>

namespace certify {
class Random {
 public:
  explicit Random(std::uint64_t seed) : state_(seed * 0x9E3779B97F4A7C15ull + 88172645463325252ull) {
    if (state_ == 0) state_ = 1;
  }
  std::uint64_t next() {
    state_ ^= state_ << 13;
    state_ ^= state_ >> 7;
    state_ ^= state_ << 17;
    return state_ * 0x2545F4914F6CDD1Dull;
  }
  // A whole number from 0 to count - 1.
  int below(std::size_t count) { return static_cast<int>((next() >> 33) % count); }
  // A number from 0 to 1.
  double unit() { return static_cast<double>(next() >> 11) * (1.0 / 9007199254740992.0); }
  template <typename T>
  void shuffle(std::vector<T>& items) {
    for (std::size_t i = items.size(); i > 1; i--) std::swap(items[i - 1], items[below(i)]);
  }

 private:
  std::uint64_t state_;
};
}  // namespace certify
