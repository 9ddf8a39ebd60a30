#include "cuts/tightening.h"

#include <algorithm>
#include <bit>
#include <cstdint>
#include <map>

#include "cuts/families.h"
#include "running/parameters.h"

namespace certify {
namespace {
constexpr double kTiny = 1e-6;

class Tightening {
 public:
  Tightening(const Cut& cut, const Graph& graph)
      : graph_(graph), atom_(graph.size(), 0), queued_(graph.size(), 0) {
    NodeSet near;  // nodes in sets, then their neighbours too: others aren't at a border
    for (std::size_t k = 0; k < cut.sets.size(); k++) {
      for (const int v : cut.sets[k]) {
        if (atom_[v] == 0) near.push_back(v);
        atom_[v] |= std::uint64_t{1} << k;
      }
    }
    const std::size_t inside = near.size();
    size_[0] = static_cast<int>(graph.size() - inside);
    for (std::size_t k = 0; k < inside; k++) {
      size_[atom_[near[k]]]++;
      for (const Edge& edge : graph[near[k]]) near.push_back(edge.to);
    }
    std::sort(near.begin(), near.end());
    near.erase(std::unique(near.begin(), near.end()), near.end());
    for (const int v : near) {
      const bool at_border = std::any_of(graph[v].begin(), graph[v].end(),
                                         [&](const Edge& edge) { return atom_[edge.to] != atom_[v]; });
      if (at_border) queue(v);
    }
  }
  // Whether the solution crosses the sets less at the end.
  bool run() {
    bool better = false;
    int idle = kFamilies.idle_moves;
    for (std::size_t next = 0; next < queue_.size() && next < kFamilies.most_moves; next++) {
      const int v = queue_[next];
      queued_[v] = 0;
      if (size_[atom_[v]] < 2) continue;
      const auto move = best_move(v);
      if (!move || (move->gain <= kTiny && idle == 0)) continue;
      if (move->gain > kTiny) {
        better = true;
      } else {
        idle--;
      }
      size_[atom_[v]]--;
      size_[move->atom]++;
      atom_[v] = move->atom;
      for (const Edge& edge : graph_[v]) queue(edge.to);
    }
    return better;
  }
  NodeSet set(std::size_t number) const {
    NodeSet nodes;
    for (std::size_t v = 0; v < atom_.size(); v++) {
      if ((atom_[v] >> number & 1) != 0) nodes.push_back(static_cast<int>(v));
    }
    return nodes;
  }

 private:
  struct Move {
    std::uint64_t atom;  // as the sets that it is in
    double gain;
  };
  void queue(int v) {
    if (queued_[v]) return;
    queued_[v] = 1;
    queue_.push_back(v);
  }
  // How often the edges of a node would cross the sets from an atom.
  double crossed_from(int v, std::uint64_t atom) const {
    double sum = 0;
    for (const Edge& edge : graph_[v]) sum += edge.value * std::popcount(atom ^ atom_[edge.to]);
    return sum;
  }
  // To an atom of a neighbour. One that changes nothing is a move too.
  std::optional<Move> best_move(int v) const {
    const double now = crossed_from(v, atom_[v]);
    std::optional<Move> best;
    for (const Edge& edge : graph_[v]) {
      const std::uint64_t other = atom_[edge.to];
      if (other == atom_[v]) continue;
      const double gain = now - crossed_from(v, other);
      if (gain > (best ? std::max(best->gain, kTiny) : -kTiny)) best = Move{other, gain};
    }
    return best;
  }

  const Graph& graph_;
  std::vector<std::uint64_t> atom_;
  std::map<std::uint64_t, int> size_;
  std::vector<char> queued_;
  std::vector<int> queue_;
};
}  // namespace

std::optional<std::vector<NodeSet>> tightened(const Cut& cut, const Graph& graph) {
  if (cut.sets.size() > kMostSets) return std::nullopt;
  Tightening tightening(cut, graph);
  if (!tightening.run()) return std::nullopt;
  std::vector<NodeSet> sets;
  sets.reserve(cut.sets.size());
  for (std::size_t k = 0; k < cut.sets.size(); k++) sets.push_back(tightening.set(k));
  return sets;
}
}  // namespace certify
