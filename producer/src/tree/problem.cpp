#include "tree/problem.h"

#include <algorithm>
#include <cstdlib>
#include <numeric>

#include "running/parameters.h"
#include "tours/fixed_paths.h"

namespace certify {
namespace {
// The largest scale of a file by which all weights stay within their limit.
Weight most_scale(const Matrix& weights) {
  Weight most = 1;
  for (int i = 0; i < weights.nodes(); i++) {
    for (int j = 0; j < weights.nodes(); j++) most = std::max(most, std::abs(weights(i, j)));
  }
  return std::clamp<Weight>(kLeaves.most_scaled_weight / most, 1, kLeaves.most_scale);
}

// A multiple of the scale of a certificate that is gone on with, so that its numbers are whole.
Weight scale_for(const Matrix& weights, const Start& start) {
  const Weight length = std::abs(length_of(weights, start.tour)), most = most_scale(weights);
  const Weight scale =
      std::min(length > kLeaves.long_length ? kLeaves.coarse_scale : kLeaves.fine_scale, most);
  if (!start.tree) return scale;
  const Weight common = std::lcm(scale, start.tree->scale);
  return common <= most ? common : start.tree->scale;
}

Matrix costs_of(const Instance& instance) {
  if (!instance.directed) return with_fixed_lowered(instance.weights, instance.fixed);
  Matrix costs(instance.nodes());
  for (int i = 0; i < instance.nodes(); i++) {
    for (int j = 0; j < i; j++) costs.set(i, j, instance.weights(i, j) + instance.weights(j, i));
  }
  return costs;
}
}  // namespace

Problem::Problem(const Instance& instance, const Start& start)
    : instance(instance),
      start(start),
      costs(costs_of(instance)),
      scale(scale_for(instance.weights, start)),
      edges(start.edges) {
  const Neighbours near = nearest(instance.weights, kProgram.near);
  for (int v = 0; v < instance.nodes(); v++) {
    for (const int w : near[v]) edges.emplace_back(v, w);
  }
  for (const Pair& edge : instance.links_of(start.tour)) edges.push_back(edge);
}
}  // namespace certify
