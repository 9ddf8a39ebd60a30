#include "cuts/families.h"

#include <algorithm>
#include <map>

namespace certify {
namespace {
constexpr int kFar = 1 << 29;
}  // namespace

// By the sets of points that are visited, and the last of them. The last point is where the tour begins.
int shortest_tour(const std::vector<std::vector<int>>& distance) {
  const int rest = static_cast<int>(distance.size()) - 1;
  if (rest < 1) return 0;
  const std::size_t all = (std::size_t{1} << rest) - 1;
  std::vector<int> least((all + 1) * rest, kFar);
  for (int j = 0; j < rest; j++) least[(std::size_t{1} << j) * rest + j] = distance[rest][j];
  for (std::size_t visited = 1; visited <= all; visited++) {
    for (int i = 0; i < rest; i++) {
      const int here = least[visited * rest + i];
      if (here == kFar) continue;
      for (int j = 0; j < rest; j++) {
        if ((visited >> j & 1) != 0) continue;
        int& next = least[(visited | std::size_t{1} << j) * rest + j];
        next = std::min(next, here + distance[i][j]);
      }
    }
  }
  int shortest = kFar;
  for (int j = 0; j < rest; j++) shortest = std::min(shortest, least[all * rest + j] + distance[j][rest]);
  return shortest;
}

std::vector<int> atoms_of(const std::vector<NodeSet>& sets, int nodes) {
  std::vector<std::vector<std::size_t>> sets_of(nodes);
  for (std::size_t k = 0; k < sets.size(); k++) {
    for (const int v : sets[k]) sets_of[v].push_back(k);
  }
  std::map<std::vector<std::size_t>, int> numbers;
  std::vector<int> atoms;
  atoms.reserve(sets_of.size());
  for (const auto& own : sets_of) {
    atoms.push_back(numbers.emplace(own, static_cast<int>(numbers.size())).first->second);
  }
  return atoms;
}

std::optional<int> required_crossings(const std::vector<NodeSet>& sets, int nodes) {
  if (sets.size() > kMostSets) return std::nullopt;
  const std::vector<int> atoms = atoms_of(sets, nodes);
  const int count = *std::max_element(atoms.begin(), atoms.end()) + 1;
  if (count > kMostAtoms) return std::nullopt;
  std::vector<std::vector<int>> distance(count, std::vector<int>(count, 0));
  for (const NodeSet& set : sets) {
    std::vector<char> inside(count, 0);
    for (const int v : set) inside[atoms[v]] = 1;
    for (int a = 0; a < count; a++) {
      for (int b = 0; b < count; b++) distance[a][b] += inside[a] != inside[b] ? 1 : 0;
    }
  }
  return shortest_tour(distance);
}
}  // namespace certify
