// Passes of region searches that shorten a tour, one after another, or beside the work on a linear program.
// Without a limit of time the tour is the same for any number of threads.
#pragma once
#include <atomic>

#include "running/clock.h"
#include "running/threads.h"
#include "sparse/region_search.h"

namespace sparse {
class TourPasses {
 public:
  // The costs have these numbers of the nodes added. Long edges of the graph are looked at too.
  TourPasses(const Problem& problem, const std::vector<double>& numbers,
             const std::vector<potentials::Edge>& graph, const certify::Clock& clock, Tour tour,
             std::uint64_t seed)
      : problem_(problem), graph_(graph), clock_(clock), search_(problem, numbers, std::move(tour), seed) {}
  // Over all regions, and over the nodes at long edges. True from stop ends it early. Whether the tour is
  // shorter then.
  bool pass(const std::function<bool()>& stop);
  // Begins as many passes as the parameters say. Under a limit of time, where there are more threads, they go
  // on until `end_beside` is called. Nothing else may be called before that.
  void begin_beside();
  void end_beside();
  const Tour& tour() const { return search_.tour(); }
  int passes() const { return passes_; }

 private:
  void run_beside();

  const Problem& problem_;
  const std::vector<potentials::Edge>& graph_;
  const certify::Clock& clock_;
  RegionSearch search_;
  int passes_ = 0;
  std::atomic<bool> ending_ = false;  // `end_beside` waits
  certify::Beside beside_;
};
}  // namespace sparse
