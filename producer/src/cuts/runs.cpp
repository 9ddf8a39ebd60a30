#include "cuts/runs.h"

#include <algorithm>

namespace certify {
Runs::Runs(const Graph& graph, const Tour& given, const Reach& reach)
    : tour(given),
      place(given.size()),
      nodes_(static_cast<int>(given.size())),
      longest_(std::min(reach.longest_run, nodes_ - 2)),
      longest_tooth_(std::min(reach.longest_tooth, longest_)),
      crossings_(static_cast<std::size_t>(nodes_) * (longest_ + 1), 0),
      over_(nodes_),
      best_gain_(nodes_, 0) {
  for (int k = 0; k < nodes_; k++) place[tour[k]] = k;
  count_crossings(graph);
  std::vector<double> shortest(longest_tooth_ + 2);
  for (int k = 0; k < nodes_; k++) choose_runs(k, shortest);
}

void Runs::count_crossings(const Graph& graph) {
  for (int left = 0; left < nodes_; left++) {
    double sum = 0;
    for (int size = 1; size <= longest_; size++) {
      for (const Edge& edge : graph[tour[(left + size - 1) % nodes_]]) {
        int other = place[edge.to] - left;
        if (other < 0) other += nodes_;
        sum += other < size - 1 ? -edge.value : edge.value;
      }
      crossings_[static_cast<std::size_t>(left) * (longest_ + 1) + size] = static_cast<float>(sum);
    }
  }
}

// Keeps the runs from k - a to k + b that gain more than each shorter one inside them. shortest[b] is
// the best gain of those with a smaller a.
void Runs::choose_runs(int k, std::vector<double>& shortest) {
  const int most = longest_tooth_;
  std::fill(shortest.begin(), shortest.end(), 0.02);
  for (int a = 0; a < most; a++) {
    const int left = (k - a + nodes_) % nodes_;
    double best = 0;
    for (int b = 1; a + b + 1 <= most; b++) {
      const double gain = 3 - crossings(left, a + b + 1);
      best = std::max(best, shortest[b]);
      if (gain > best + 1e-5) {
        over_[k].push_back({left, (k + b) % nodes_, gain});
        best_gain_[k] = std::max(best_gain_[k], gain);
        best = gain;
      }
      shortest[b] = best;
      if (best > 1 - 1e-6) {  // no gain is above 1
        for (int q = b; q <= most; q++) shortest[q] = std::max(shortest[q], best);
        if (b == 1) return;
        break;
      }
    }
  }
}

std::vector<NodeSet> Runs::crossed_too_little(double least_violation) const {
  std::vector<NodeSet> sets;
  for (int left = 0; left < nodes_; left++) {
    for (int size = 2; size <= longest_; size++) {
      if (crossings(left, size) >= 2 - least_violation) continue;
      sets.push_back(nodes_of({left, (left + size - 1) % nodes_, 0}));
      break;
    }
  }
  return sets;
}

NodeSet Runs::nodes_of(const Run& run) const {
  NodeSet nodes{tour[run.left]};
  for (int k = run.left; k != run.right;) {
    k = k + 1 == nodes_ ? 0 : k + 1;
    nodes.push_back(tour[k]);
  }
  return nodes;
}
}  // namespace certify
