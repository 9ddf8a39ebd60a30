#include "sparse/tour_passes.h"

#include <numeric>
#include <utility>

#include "sparse/sparse_parameters.h"

namespace sparse {
bool TourPasses::pass(const std::function<bool()>& stop) {
  const double before = problem_.length(tour());
  NodeSet all(problem_.nodes());
  std::iota(all.begin(), all.end(), 0);
  search_.pass_over(regions_of(problem_, std::move(all), kSparse.region, passes_), stop);
  const auto count = static_cast<std::size_t>(kSparse.at_long_edges * problem_.nodes());
  NodeSet ends = nodes_at_long_edges(problem_, tour(), graph_, count);
  search_.pass_over(regions_of(problem_, std::move(ends), kSparse.long_region, passes_), stop);
  passes_++;
  return problem_.length(tour()) < before;
}

void TourPasses::run_beside() {
  const bool goes_on = clock_.limited() && certify::threads() > 1;
  const auto stop = [&] { return clock_.over(sparse_times().program) || (goes_on && ending_); };
  int misses = 0;
  for (int done = 0; goes_on || done < kSparse.passes_beside; done++) {
    if (misses == kSparse.most_misses || stop()) return;
    misses = pass(stop) ? 0 : misses + 1;
  }
}

void TourPasses::begin_beside() {
  ending_ = false;
  beside_.begin([this] { run_beside(); });
}

void TourPasses::end_beside() {
  ending_ = true;
  beside_.end();
}
}  // namespace sparse
