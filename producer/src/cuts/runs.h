// Runs of a tour as teeth of combs: how often a solution crosses each run, and the runs over each
// place between two nodes that are worth a try.
// Source: D. Applegate, R. Bixby, V. Chvatal and W. Cook, The Traveling Salesman Problem (2006), on
// intervals of a tour and combs by dynamic programming.
#pragma once
#include "cuts/support.h"
#include "running/parameters.h"

namespace certify {
struct Run {
  int left, right;  // places of the tour, both in the run
  double gain;      // 3 less the crossings
};

class Runs {
 public:
  Runs(const Graph& graph, const Tour& tour, const Reach& reach);
  // The runs over the place between k and k + 1 that no shorter run is as good as.
  const std::vector<Run>& over(int k) const { return over_[k]; }
  double best_gain(int k) const { return best_gain_[k]; }
  // The shortest run from each place on that is crossed too little.
  std::vector<NodeSet> crossed_too_little(double least_violation) const;
  NodeSet nodes_of(const Run& run) const;

  const Tour tour;
  std::vector<int> place;

 private:
  double crossings(int left, int size) const {
    return crossings_[static_cast<std::size_t>(left) * (longest_ + 1) + size];
  }
  void count_crossings(const Graph& graph);
  void choose_runs(int k, std::vector<double>& shortest);

  int nodes_, longest_, longest_tooth_;
  std::vector<float> crossings_;  // of the run from each place on, by its size
  std::vector<std::vector<Run>> over_;
  std::vector<double> best_gain_;
};
}  // namespace certify
