// Bounds in whole numbers, before they are divided by their scale.
#pragma once
#include <algorithm>

#include "graphs/tour.h"

namespace certify {
__extension__ typedef __int128 Value;                               // a bound times the scale
inline constexpr Value kNoValue = -(static_cast<Value>(1) << 120);  // of numbers that bound nothing

// The least value whose bound reaches a length.
inline Value value_to_reach(Weight length, Weight scale) {
  return static_cast<Value>(scale) * (length - 1) + 1;
}

// The least bound that a value gives. One that is past all lengths stays past them.
inline Weight rounded_up(Value value, Weight scale) {
  constexpr Value kMost = 4000000000000000000;
  const Value bound = value >= 0 ? (value + scale - 1) / scale : -(-value / scale);
  return static_cast<Weight>(std::clamp(bound, -kMost, kMost));
}
}  // namespace certify
