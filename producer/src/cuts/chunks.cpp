#include "cuts/chunks.h"

#include <algorithm>
#include <limits>
#include <numeric>

#include "running/parameters.h"

namespace certify {
namespace {
constexpr double kWhole = 1 - 1e-6;
}  // namespace

void Chunks::add_part(NodeSet part) {
  for (const int v : part) part_of_[v] = static_cast<int>(parts_.size());
  parts_.push_back(std::move(part));
}

void Chunks::take_tight_sets(std::size_t largest) {
  std::vector<const NodeSet*> sets = tight_;
  random_.shuffle(sets);
  for (const NodeSet* set : sets) {
    if (set->size() > largest || random_.below(3) == 0) continue;
    if (std::none_of(set->begin(), set->end(), [&](int v) { return part_of_[v].has_value(); }))
      add_part(*set);
  }
}

// An end of the path of whole edges between nodes without a part.
int Chunks::end_of_path(int start) const {
  int end = start;
  int before = -1;
  for (int steps = 0; steps < nodes_; steps++) {
    const auto next = std::find_if(graph_[end].begin(), graph_[end].end(), [&](const Edge& edge) {
      return edge.value >= kWhole && edge.to != before && !part_of_[edge.to];
    });
    if (next == graph_[end].end() || next->to == start) break;
    before = end;
    end = next->to;
  }
  return end;
}

// A path of whole edges is two parts, or one.
void Chunks::take_path(int start, bool one) {
  NodeSet path{end_of_path(start)};
  int before = -1;
  while (true) {
    const std::vector<Edge>& edges = graph_[path.back()];
    const auto next = std::find_if(edges.begin(), edges.end(), [&](const Edge& edge) {
      return edge.value >= kWhole && edge.to != before && edge.to != path.front() && !part_of_[edge.to];
    });
    if (next == edges.end()) break;
    before = path.back();
    path.push_back(next->to);
  }
  if (path.size() == 1 || one) {
    add_part(std::move(path));
    return;
  }
  const std::ptrdiff_t middle = random_.below(2) == 1 ? 1 : static_cast<std::ptrdiff_t>(path.size()) - 1;
  add_part({path.begin(), path.begin() + middle});
  add_part({path.begin() + middle, path.end()});
}

void Chunks::link_parts() {
  links_.assign(parts_.size(), {});
  degree_.assign(parts_.size(), 0);
  std::vector<double> sum(parts_.size(), 0);
  for (std::size_t p = 0; p < parts_.size(); p++) {
    std::vector<int> touched;
    for (const int v : parts_[p]) {
      for (const Edge& edge : graph_[v]) {
        const int q = *part_of_[edge.to];
        if (q == static_cast<int>(p)) continue;
        if (sum[q] == 0) touched.push_back(q);
        sum[q] += edge.value;
      }
    }
    for (const int q : touched) {
      links_[p].push_back({q, sum[q]});
      degree_[p] += sum[q];
      sum[q] = 0;
    }
  }
}

void Chunks::shrink(int kind, std::size_t largest) {
  part_of_.assign(nodes_, std::nullopt);
  parts_.clear();
  if (kind > 0) take_tight_sets(largest);
  for (int v = 0; v < nodes_; v++) {
    if (!part_of_[v]) take_path(v, kind > 1 && random_.below(2) == 0);
  }
  link_parts();
}

std::vector<int> Chunks::centers() {
  std::vector<int> centers;
  for (std::size_t p = 0; p < parts_.size(); p++) {
    const bool in_part = std::any_of(links_[p].begin(), links_[p].end(),
                                     [](const Edge& edge) { return edge.value > 0.02 && edge.value < 0.98; });
    if (in_part) centers.push_back(static_cast<int>(p));
  }
  random_.shuffle(centers);
  return centers;
}

// Parts that pull each other, from the center on.
std::vector<int> Chunks::grow(int center, int size, Random& random) const {
  std::vector<double> pull(parts_.size(), 0);
  std::vector<char> inside(parts_.size(), 0);
  std::vector<int> border;
  std::vector<int> grown;
  for (int next = center; next >= 0 && static_cast<int>(grown.size()) < size;) {
    inside[next] = 1;
    grown.push_back(next);
    for (const Edge& edge : links_[next]) {
      if (pull[edge.to] == 0) border.push_back(edge.to);
      pull[edge.to] += edge.value * (0.6 + 0.8 * random.unit());
    }
    next = -1;
    double most = 0;
    for (const int q : border) {
      if (inside[q] || pull[q] <= most) continue;
      most = pull[q];
      next = q;
    }
  }
  return grown;
}

Chunks::Ball Chunks::ball_of(const std::vector<int>& parts) const {
  const std::size_t size = parts.size();
  std::vector<int> place(parts_.size(), -1);
  for (std::size_t a = 0; a < size; a++) place[parts[a]] = static_cast<int>(a);
  Ball ball{parts,
            std::vector<std::vector<double>>(size, std::vector<double>(size, 0)),
            {},
            std::vector<int>(size)};
  std::iota(ball.group.begin(), ball.group.end(), 0);
  ball.whole = size == parts_.size();
  for (std::size_t a = 0; a < size; a++) {
    ball.crossed.push_back(degree_[parts[a]]);
    for (const Edge& edge : links_[parts[a]]) {
      if (place[edge.to] >= 0) ball.joined[a][place[edge.to]] = edge.value;
    }
  }
  return ball;
}

// Joins two parts again and again whose union is crossed little, far from the center first.
bool Chunks::contract(Ball& ball, int atoms, Random& random) {
  const int size = static_cast<int>(ball.parts.size());
  std::vector<int> left(size);
  std::iota(left.begin(), left.end(), 0);
  while (static_cast<int>(left.size()) > atoms) {
    double least = std::numeric_limits<double>::max();
    Pair best{-1, -1};
    for (std::size_t k = 0; k < left.size(); k++) {
      for (std::size_t l = k + 1; l < left.size(); l++) {
        const int a = left[k];
        const int b = left[l];
        if (ball.joined[a][b] <= 0) continue;
        const double crossed = ball.crossed[a] + ball.crossed[b] - 2 * ball.joined[a][b];
        const double score = crossed + 0.7 * random.unit() - 1.5 * (a + b) / (2.0 * size);
        if (score >= least) continue;
        least = score;
        best = {a, b};
      }
    }
    const auto [a, b] = best;
    if (a < 0) return false;
    ball.crossed[a] += ball.crossed[b] - 2 * ball.joined[a][b];
    std::erase(left, b);
    for (const int c : left) {
      if (c == a) continue;
      ball.joined[a][c] += ball.joined[b][c];
      ball.joined[c][a] = ball.joined[a][c];
    }
    std::replace(ball.group.begin(), ball.group.end(), b, a);
  }
  return true;
}

Chunk Chunks::chunk_of(const Ball& ball) const {
  Chunk chunk;
  std::vector<int> number(ball.parts.size(), -1);
  for (const int group : ball.group) {
    if (number[group] < 0) number[group] = chunk.atoms++;
  }
  std::vector<int> count(chunk.atoms, 0);
  chunk.atom_of.assign(nodes_, chunk.atoms);
  for (std::size_t a = 0; a < ball.parts.size(); a++) {
    const int atom = number[ball.group[a]];
    for (const int v : parts_[ball.parts[a]]) chunk.atom_of[v] = atom;
    count[atom] += static_cast<int>(parts_[ball.parts[a]].size());
  }
  if (!ball.whole) {
    chunk.atoms++;
    count.push_back(
        static_cast<int>(std::count(chunk.atom_of.begin(), chunk.atom_of.end(), chunk.atoms - 1)));
  }
  for (const int size : count) chunk.is_single.push_back(size == 1 ? 1 : 0);
  return chunk;
}

std::optional<Chunk> Chunks::around(int center, int atoms, int ball, Random& random) const {
  const std::vector<int> parts = grow(center, ball, random);
  if (static_cast<int>(parts.size()) < kFamilies.fewest_parts) return std::nullopt;
  Ball grown = ball_of(parts);
  if (!contract(grown, grown.whole ? atoms : atoms - 1, random)) return std::nullopt;
  return chunk_of(grown);
}
}  // namespace certify
