#include "cuts/quotients.h"

#include <algorithm>
#include <bit>
#include <cmath>
#include <numeric>

#include "cuts/atom_tours.h"
#include "cuts/quotient_simplex.h"
#include "running/parameters.h"
#include "running/threads.h"

namespace certify {
namespace {
using Multipliers = std::vector<std::pair<std::uint32_t, double>>;

// The tour's atoms, each where it comes first.
AtomTour first_tour(const Chunk& chunk, const Tour& tour) {
  AtomTour atoms;
  for (const int v : tour) {
    const int atom = chunk.atom_of[v];
    if (std::find(atoms.begin(), atoms.end(), atom) == atoms.end()) atoms.push_back(atom);
  }
  return atoms;
}

// The least combination of bonds that each tour of the atoms crosses at least once. Nothing where the
// solution crosses it once too, or where the search gave up.
std::optional<Multipliers> least_combination(const std::vector<std::pair<double, std::uint32_t>>& bonds,
                                             int atoms, const AtomTour& first, Random& random) {
  std::vector<double> costs;
  std::vector<std::uint32_t> sets;
  for (const auto& [crossed, set] : bonds) {
    costs.push_back(std::max(crossed, 2.0) * (1 + 2e-5 * random.unit()));
    sets.push_back(set);
  }
  sets.resize(in_whole_blocks(sets.size()), 0);
  QuotientSimplex program(costs);
  std::vector<AtomTour> rows;
  std::vector<AtomTour> fresh{first};
  for (int round = 0; round < kFamilies.rounds; round++) {
    for (const AtomTour& tour : fresh) {
      std::vector<std::uint32_t> times(sets.size(), 0);
      for (std::size_t k = 0; k < tour.size(); k++)
        add_between(times, sets, tour[k], tour[(k + 1) % tour.size()]);
      program.add_row(times);
      rows.push_back(tour);
    }
    if (!program.solve(kFamilies.pivots) || program.objective() > 1 - kFamilies.least_lack)
      return std::nullopt;
    if (program.rows() > kFamilies.many_rows) program.drop(0.15F);
    Multipliers multipliers;
    for (const auto& [bond, value] : program.solution()) multipliers.emplace_back(sets[bond], value);
    const AtomTours tours(atoms, multipliers);
    std::vector<AtomTour> tight;
    for (const int row : program.tight_rows()) tight.push_back(rows[row]);
    fresh = tours.by_local_search(tight, 1 - 1e-3F, 5);
    if (fresh.empty()) fresh = tours.shortest(1 - 2e-4F, 3);
    if (fresh.empty()) return multipliers;
  }
  return std::nullopt;
}

// Whole numbers in about the same proportion, or nothing where one would be large.
std::optional<std::vector<int>> whole_multipliers(const Multipliers& multipliers) {
  double least = multipliers[0].second;
  for (const auto& [set, value] : multipliers) least = std::min(least, value);
  std::vector<int> times(multipliers.size());
  const auto round_by = [&](int factor) {
    double off = 0;
    for (std::size_t k = 0; k < times.size(); k++) {
      const double exact = multipliers[k].second / least * factor;
      times[k] = static_cast<int>(std::lround(exact));
      off = std::max(off, std::abs(exact - times[k]));
    }
    return off;
  };
  bool near = false;
  for (int factor = 1; factor <= 12 && !near; factor++) near = round_by(factor) < 0.01 + 0.01 * factor;
  if (!near) round_by(4);
  if (*std::max_element(times.begin(), times.end()) > kFamilies.most_times) return std::nullopt;
  return times;
}

std::uint64_t mixed(std::uint64_t number) {
  return (number + 1) * 0x9E3779B97F4A7C15ULL * ((number + 7) * 0xD6E8FEB86659FD93ULL | 1);
}
}  // namespace

QuotientSearch::QuotientSearch(const Graph& graph, const std::vector<const NodeSet*>& tight, const Tour& tour,
                               Random& random, std::unordered_set<std::uint64_t>& tried, const Effort& effort)
    : graph_(graph),
      tour_(tour),
      random_(random),
      tried_(tried),
      effort_(effort),
      chunks_(graph, tight, random) {}

AtomGraph QuotientSearch::graph_of(const Chunk& chunk) const {
  AtomGraph between{};
  for (std::size_t v = 0; v < graph_.size(); v++) {
    const int a = chunk.atom_of[v];
    if (a == chunk.atoms - 1) continue;
    for (const Edge& edge : graph_[v]) {
      const int b = chunk.atom_of[edge.to];
      if (a == b) continue;
      between[a][b] += edge.value;
      if (b == chunk.atoms - 1) between[b][a] += edge.value;
    }
  }
  return between;
}

// Of the atoms and the values between them.
std::uint64_t QuotientSearch::hash_of(const Chunk& chunk, const AtomGraph& between) const {
  std::vector<std::uint64_t> key(chunk.atoms, 0);
  for (std::size_t v = 0; v < graph_.size(); v++) {
    if (chunk.atom_of[v] != chunk.atoms - 1) key[chunk.atom_of[v]] += mixed(v);
  }
  std::uint64_t hash = 0;
  for (int a = 0; a < chunk.atoms; a++) {
    for (int b = 0; b < a; b++) {
      if (between[a][b] <= 1e-6) continue;
      const auto value = static_cast<std::uint64_t>(std::llround(between[a][b] * 5000));
      hash += mixed(key[a] + key[b]) * (2 * value + 1) + (key[a] ^ key[b]);
    }
  }
  return hash;
}

void QuotientSearch::begin(Trial& trial) const {
  const int atoms = effort_.atoms;
  const int balls[] = {atoms - 1, atoms + atoms / 2, kFamilies.wide_ball * atoms};
  trial.chunk = chunks_.around(trial.center, atoms, balls[trial.random.below(3)], trial.random);
  if (!trial.chunk) return;
  trial.between = graph_of(*trial.chunk);
  trial.hash = hash_of(*trial.chunk, trial.between);
}

std::optional<Family> QuotientSearch::family_of(Trial& trial) const {
  const Chunk& chunk = *trial.chunk;
  const auto bonds = bonds_of(trial.between, chunk.atoms, kFamilies.most_bonds);
  if (bonds.size() < kFamilies.fewest_bonds) return std::nullopt;
  const auto multipliers = least_combination(bonds, chunk.atoms, first_tour(chunk, tour_), trial.random);
  if (!multipliers || multipliers->empty()) return std::nullopt;
  return rounded(chunk, trial.between, *multipliers);
}

// The sets by nodes, each on its smaller side.
std::vector<NodeSet> QuotientSearch::sets_of(const Chunk& chunk,
                                             const std::vector<std::pair<std::uint32_t, int>>& sets) const {
  std::vector<NodeSet> all;
  for (const auto& [set, times] : sets) {
    NodeSet inside;
    NodeSet outside;
    for (std::size_t v = 0; v < graph_.size(); v++) {
      ((set >> chunk.atom_of[v] & 1) != 0 ? inside : outside).push_back(static_cast<int>(v));
    }
    for (int k = 0; k < times; k++) all.push_back(inside.size() <= outside.size() ? inside : outside);
  }
  return all;
}

std::optional<Family> QuotientSearch::rounded(const Chunk& chunk, const AtomGraph& between,
                                              const Multipliers& multipliers) const {
  const auto times = whole_multipliers(multipliers);
  if (!times) return std::nullopt;
  const std::uint32_t all = (1U << chunk.atoms) - 1;
  std::vector<std::pair<std::uint32_t, int>> sets;
  int common = 0;
  for (std::size_t k = 0; k < times->size(); k++) {
    const std::uint32_t set = multipliers[k].first;
    const auto is_node = [&](std::uint32_t side) {
      return std::has_single_bit(side) && chunk.is_single[std::countr_zero(side)] != 0;
    };
    const bool degree = is_node(set) || is_node(all & ~set);
    if ((*times)[k] == 0 || degree) continue;  // each tour and the solution cross the set of a node twice
    sets.emplace_back(set, (*times)[k]);
    common = std::gcd(common, (*times)[k]);
  }
  if (sets.size() < 2) return std::nullopt;
  double crossed = 0;
  double norm = 0;
  for (auto& [set, count] : sets) count /= common;
  for (int a = 0; a < chunk.atoms; a++) {
    for (int b = 0; b < a; b++) {
      double apart = 0;
      for (const auto& [set, count] : sets) apart += ((set >> a ^ set >> b) & 1) != 0 ? count : 0;
      crossed += apart * between[a][b];
      if (between[a][b] > 0) norm += apart * apart;
    }
  }
  Family family{sets_of(chunk, sets), 0, 0};
  const auto required = required_crossings(family.sets, static_cast<int>(graph_.size()));
  if (!required || *required - crossed < effort_.least_violation) return std::nullopt;
  family.required = *required;
  family.depth = (*required - crossed) / std::sqrt(norm);
  return family;
}

std::vector<Family> QuotientSearch::find() {
  const int most_chunks = effort_.chunks;
  std::vector<Family> found;
  int tried = 0;
  for (int pass = 0; tried < most_chunks && pass < kFamilies.passes; pass++) {
    chunks_.shrink(pass % 4, effort_.reach.largest_sets[pass % 4]);
    std::vector<int> centers = chunks_.centers();
    if (centers.empty()) break;
    centers.resize(
        std::min(centers.size(), std::max<std::size_t>(20, static_cast<std::size_t>(most_chunks) / 8)));
    std::vector<Trial> trials;
    trials.reserve(centers.size());
    for (const int center : centers) trials.push_back({center, Random(random_.next())});
    for_each_at_once(trials.size(), [&](std::size_t k) { begin(trials[k]); });
    std::erase_if(trials, [](const Trial& trial) { return !trial.chunk; });
    trials.resize(std::min(trials.size(), static_cast<std::size_t>(most_chunks - tried)), {0, Random(0)});
    tried += static_cast<int>(trials.size());
    std::vector<Trial*> fresh;
    for (Trial& trial : trials) {
      if (tried_.insert(trial.hash).second) fresh.push_back(&trial);
    }
    for_each_at_once(fresh.size(), [&](std::size_t k) { fresh[k]->family = family_of(*fresh[k]); });
    for (Trial& trial : trials) {
      if (trial.family) found.push_back(std::move(*trial.family));
    }
  }
  std::stable_sort(found.begin(), found.end(),
                   [](const Family& a, const Family& b) { return a.depth > b.depth; });
  return found;
}
}  // namespace certify
