// What a run tells at its end: the files, and the gap by its own reckoning.
#pragma once
#include <algorithm>
#include <functional>

#include "certify/options.h"
#include "graphs/tour.h"
#include "running/progress.h"

namespace certify {
struct Ending {
  Weight length, bound;
  int leaves = 1;
  std::optional<Weight> given{};      // the length of the named tour
  std::optional<std::string> kept{};  // where a shorter tour is, which no word says
  bool limited = false;               // leaves are open because of the limits of a file
  bool rounded_away = false;  // distances are rounded, and each of the tour is 0 or 1: they say little
};

// A length that says little: where distances of points are rounded away.
template <class CostOf>
bool is_rounded_away(const Tour& tour, const CostOf& cost_of) {
  const std::vector<Pair> arcs = arcs_of(tour);
  return std::all_of(arcs.begin(), arcs.end(), [&](const Pair& arc) {
    const auto cost = cost_of(arc.first, arc.second);
    return cost == 0 || cost == 1;
  });
}

// Says so at the start, where a shorter tour would be lost.
void warn_of_lost_tour(const Options& options);
// What a search found: its certificate, the numbers of the open leaves, and how its tour is written.
struct Files {
  const Certificate& certificate;
  std::vector<int> open_leaves{};
  std::function<void(const std::string& path)> write_tour;
};
// Writes the files, prints the open leaves of a split, and reports. The exit status.
int end_run(const Options& options, const Files& files, Progress& progress, Ending ending);
// Of the parts that aren't joined, by their places on the command line.
void report_left_out(const Options& options, const std::vector<std::size_t>& parts);
}  // namespace certify
