// Finds tours: the first one, and shorter ones with the help of potentials.
#pragma once
#include <cstdint>
#include <functional>
#include <optional>

#include "points/problem.h"
#include "running/clock.h"

namespace potentials {
// By the shortest edges; of a few nodes the shortest one, by all orders.
Tour first_tour(const Problem& problem);

struct TourSearch {
  std::uint64_t seed = 1;
  bool named = false;         // the tour, so that the search has to begin with it
  std::optional<long> kicks;  // else they are chosen so that the search takes the seconds of the limit
  certify::TimeLimit limit;
  // Called now and then with the kicks that are done, and how much shorter the tour is; false ends the
  // search.
  std::function<bool(long, double)> watch;
};

struct Shortened {
  Tour tour;
  long kicks = 0;
};

// `support` are edges that the search tries beside the lightest ones of each node.
Shortened shorten(const Problem& problem, const Tour& tour, std::vector<double> numbers,
                  const std::vector<Edge>& support, const TourSearch& search);
}  // namespace potentials
