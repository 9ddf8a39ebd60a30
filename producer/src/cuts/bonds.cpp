#include "cuts/bonds.h"

#include <algorithm>
#include <bit>

#include "running/parameters.h"

namespace certify {
namespace {
class BondSearch {
 public:
  BondSearch(const AtomGraph& graph, int atoms) : graph_(graph), atoms_(atoms), adjacent_(atoms, 0) {
    for (int a = 0; a < atoms; a++) {
      for (int b = 0; b < atoms; b++) {
        if (graph[a][b] > 1e-6) adjacent_[a] |= 1U << b;
      }
    }
    order_atoms();
  }
  std::vector<std::pair<double, std::uint32_t>> find() {
    Level first{};
    for (int a = 0; a < atoms_; a++) first.out[a] = graph_[a][atoms_ - 1];
    extend(0, first);
    return bonds_;
  }

 private:
  // The atoms before a depth have a side. What each later atom has in common with both sides.
  struct Level {
    std::array<double, kMostChunkAtoms> in, out;
    double crossed;
    std::uint32_t set;
  };

  // Each next atom is the one that has most in common with those before it, the last atom first.
  void order_atoms() {
    std::vector<double> near(atoms_);
    std::vector<char> placed(atoms_, 0);
    for (int a = 0; a < atoms_; a++) near[a] = graph_[a][atoms_ - 1];
    placed[atoms_ - 1] = 1;
    while (static_cast<int>(order_.size()) < atoms_ - 1) {
      int next = -1;
      for (int a = 0; a < atoms_ - 1; a++) {
        if (!placed[a] && (next < 0 || near[a] > near[next])) next = a;
      }
      order_.push_back(next);
      placed[next] = 1;
      for (int a = 0; a < atoms_; a++) near[a] += graph_[a][next];
    }
  }

  bool connected(std::uint32_t set) const {
    std::uint32_t seen = set & (~set + 1);
    for (std::uint32_t fresh = seen; fresh != 0;) {
      std::uint32_t next = 0;
      for (std::uint32_t rest = fresh; rest != 0; rest &= rest - 1) next |= adjacent_[std::countr_zero(rest)];
      fresh = next & set & ~seen;
      seen |= fresh;
    }
    return seen == set;
  }

  void extend(std::size_t depth, const Level& here) {
    if (steps_++ > kFamilies.most_steps) return;
    if (depth == order_.size()) {
      const std::uint32_t others = ((1U << atoms_) - 1) & ~here.set;
      if (here.set != 0 && connected(here.set) && connected(others))
        bonds_.emplace_back(here.crossed, here.set);
      return;
    }
    const int v = order_[depth];
    for (const bool inside : {true, false}) {
      Level next;
      next.crossed = here.crossed + (inside ? here.out[v] : here.in[v]);
      next.set = here.set | (inside ? 1U << v : 0);
      double more = 0;
      for (std::size_t k = depth + 1; k < order_.size(); k++) {
        const int a = order_[k];
        next.in[a] = here.in[a] + (inside ? graph_[v][a] : 0);
        next.out[a] = here.out[a] + (inside ? 0 : graph_[v][a]);
        more += std::min(next.in[a], next.out[a]);
      }
      if (next.crossed + more <= kFamilies.most_crossed) extend(depth + 1, next);
    }
  }

  const AtomGraph& graph_;
  int atoms_;
  std::vector<std::uint32_t> adjacent_;
  std::vector<int> order_;
  long steps_ = 0;
  std::vector<std::pair<double, std::uint32_t>> bonds_;
};
}  // namespace

std::vector<std::pair<double, std::uint32_t>> bonds_of(const AtomGraph& graph, int atoms, std::size_t most) {
  auto bonds = BondSearch(graph, atoms).find();
  if (bonds.size() > most) {
    std::nth_element(bonds.begin(), bonds.begin() + static_cast<std::ptrdiff_t>(most), bonds.end());
    bonds.resize(most);
  }
  return bonds;
}
}  // namespace certify
