// What all cases of a tree have in common.
#pragma once
#include <optional>

#include "reading/instance.h"
#include "tree/certificate.h"

namespace certify {
// What the search begins with.
struct Start {
  Tour tour;
  std::vector<Tour> further{};  // other good tours
  std::vector<Pair> edges{};    // likely edges
  std::optional<Weight> upper{};
  std::uint64_t seed = 1;
  bool named = false;                 // the tour was named, so that none is looked for again
  bool families = true;               // cuts may be families of any sets
  std::optional<Certificate> tree{};  // that is gone on with
  std::optional<int> leaf{};          // the one leaf of it that is, from 1 on
  std::vector<double> potentials{};   // of a TSP, where some are known: no bound is below theirs
};

// What all cases have in common. It doesn't change.
struct Problem {
  Problem(const Instance& instance, const Start& start);
  const Instance& instance;
  const Start& start;
  Matrix costs;  // the weights, those of fixed pairs lowered; of an ATSP those of both directions
  Weight scale;
  std::vector<Pair> edges;  // those that each linear program begins with
};

// The shortest tour that is known, and the length that a bound has to reach.
struct Goal {
  Tour tour;
  Weight length, target;
};
}  // namespace certify
