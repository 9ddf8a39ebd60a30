#include "points/candidates.h"

#include <algorithm>
#include <tuple>

namespace potentials {
namespace {
constexpr int kMoreAtSpecial = 4;

void sort_edges(std::vector<Edge>& edges) {
  const auto key = [](const Edge& edge) { return std::tuple(edge.a, edge.b); };
  std::sort(edges.begin(), edges.end(), [&](const Edge& s, const Edge& t) { return key(s) < key(t); });
  const auto same = [&](const Edge& s, const Edge& t) { return key(s) == key(t); };
  edges.erase(std::unique(edges.begin(), edges.end(), same), edges.end());
}
}  // namespace

std::vector<Edge> near_edges(const Problem& problem, int nearest, int quadrant) {
  problem.searches().set_numbers(std::vector<double>(problem.nodes()));
  std::vector<Edge> edges;
  std::vector<Near> found;
  for (int i = 0; i < problem.nodes(); i++) {
    problem.searches().lightest(i, nearest, found);
    for (const Near& near : found) edges.push_back(problem.edge(i, near.node));
    problem.searches().lightest_around(i, quadrant, found);
    for (const Near& near : found) edges.push_back(problem.edge(i, near.node));
  }
  sort_edges(edges);
  return edges;
}

std::vector<Edge> light_edges(const Problem& problem, const std::vector<double>& numbers, int count) {
  problem.searches().set_numbers(numbers);
  std::vector<Edge> edges;
  std::vector<Near> found;
  for (int i = 0; i < problem.nodes(); i++) {
    problem.searches().lightest(i, i == problem.special() ? kMoreAtSpecial * count : count, found);
    for (const Near& near : found) edges.push_back(problem.edge(i, near.node));
  }
  sort_edges(edges);
  return edges;
}

std::vector<Edge> joined(std::vector<Edge> edges, const std::vector<Edge>& more) {
  edges.insert(edges.end(), more.begin(), more.end());
  sort_edges(edges);
  return edges;
}
}  // namespace potentials
