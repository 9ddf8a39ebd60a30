// The least weights from a customer to the depot with nothing remembered, by the load that is left.
//
// What a run weighs so far and the way home are at least what it weighs at its end. So what isn't below a
// weight then need not be looked at.
#pragma once
#include <limits>

#include "routes/loads.h"

namespace certify::routes {
template <typename W>
class WaysHome {
 public:
  explicit WaysHome(const Loads& loads) : loads_(loads), nodes_(static_cast<int>(loads.of.size())) {}
  void fill(const Links<W>& links) {
    ways_.resize(static_cast<std::size_t>(loads_.room + 1) * nodes_);
    for (int left = 0; left <= loads_.room; left++) {
      for (int v = 1; v < nodes_; v++) {
        const W* const from = &links[static_cast<std::size_t>(v) * nodes_];
        W least = from[0];
        for (int to = 1; to < nodes_; to++) {
          if (to == v || loads_.of[to] > left) continue;
          const W way = from[to] + (*this)(left - loads_.of[to], to);
          if (way < least) least = way;
        }
        ways_[static_cast<std::size_t>(left) * nodes_ + v] = least;
      }
    }
  }
  W operator()(int left, int customer) const {
    return ways_[static_cast<std::size_t>(left) * nodes_ + customer];
  }

 private:
  const Loads& loads_;
  const int nodes_;
  std::vector<W> ways_;
};
}  // namespace certify::routes
