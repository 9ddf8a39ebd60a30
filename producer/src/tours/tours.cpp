#include "tours/tours.h"

#include <algorithm>
#include <limits>
#include <utility>

#include "running/clock.h"
#include "tours/all_orders.h"
#include "tours/chained_search.h"

namespace potentials {
namespace {
constexpr int kFewNodes = 8;
constexpr int kNearest = 8;          // of the first tour
constexpr int kLightest = 5;         // of the search
constexpr double kTimedPart = 0.05;  // of a kick for each node: those that are timed
constexpr double kReserve = 0.97;    // of the time is meant to be used

Tour shorter_one(const Problem& problem, const Tour& one, const Tour& other) {
  return problem.length(other) < problem.length(one) ? other : one;
}
}  // namespace

Tour first_tour(const Problem& problem) {
  if (problem.nodes() <= kFewNodes) {
    return certify::shortest_by_orders(problem.nodes(), [&](const Tour& tour) {
      return problem.allows(tour) ? problem.length(tour) : std::numeric_limits<double>::infinity();
    });
  }
  const std::vector<double> none(problem.nodes());
  return greedy_tour(problem, none, neighbours_of(problem, none, kNearest, {}));
}

// Kicks are timed once, before most of them. Where their number is named, the tour doesn't depend on the
// clock.
Shortened shorten(const Problem& problem, const Tour& tour, std::vector<double> numbers,
                  const std::vector<Edge>& support, const TourSearch& search) {
  if (problem.nodes() <= kFewNodes) return {tour, 0};
  numbers = whole_numbers(std::move(numbers));
  const auto time = [&] { return certify::Clock::since_start(search.limit); };
  const double begin = time();
  const Neighbours near = neighbours_of(problem, numbers, kLightest, support);
  const Tour start = search.named ? tour : shorter_one(problem, tour, greedy_tour(problem, numbers, near));
  const double ahead = problem.length(tour) - problem.length(start);
  ChainedSearch chained(problem, numbers, near, start, search.seed);
  const auto watch = [&](long kicks) { return search.watch(kicks, ahead + chained.gain()); };
  chained.improve([&] { return watch(0); });
  long done = 0;
  const auto kick = [&](long count) {
    chained.kick(count, [&](long kicks) { return watch(done + kicks); });
    done += count;
  };
  if (search.kicks) {
    kick(*search.kicks);
  } else {
    const double before = time();
    kick(100 + static_cast<long>(kTimedPart * problem.nodes()));
    const double now = time();
    const double left = kReserve * search.limit.seconds - (now - begin);
    const double each = std::max((now - before) / static_cast<double>(done), 1e-7);
    kick(std::max(0L, static_cast<long>(left / each)));
  }
  return {chained.order(), done};
}
}  // namespace potentials
