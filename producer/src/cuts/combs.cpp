#include "cuts/combs.h"

#include <algorithm>
#include <array>

namespace certify {
namespace {
constexpr double kNoComb = -9;
}  // namespace

CombSearch::CombSearch(const Graph& graph, const CutPool& pool, const Runs& runs, Random& random,
                       const Effort& effort)
    : graph_(graph),
      runs_(runs),
      random_(random),
      effort_(effort),
      least_(effort.least_violation),
      count_(static_cast<int>(graph.size())),
      handle_(graph, pool),
      paths_(components(graph, [](double value) { return value > 1 - 1e-6; })),
      path_of_(graph.size()),
      used_(graph.size(), 0),
      back_(graph.size(), 0) {
  for (std::size_t k = 0; k < paths_.size(); k++) {
    for (const int v : paths_[k]) path_of_[v] = static_cast<int>(k);
  }
}

// The violation of the best comb with this handle and runs as teeth, which is kept where it is enough.
double CombSearch::with_runs(double enough) {
  const int size = static_cast<int>(handle_.nodes().size());
  if (size < 2 || size > count_ - 3) return kNoComb;
  if (const double* known = seen_.find(handle_.hash())) return *known;
  const double violation = best_runs(enough);
  seen_.put(handle_.hash(), violation);
  return violation;
}

// Lists the places where the tour goes into the handle or out of it. Returns a violation that none is above.
double CombSearch::list_ends() {
  ends_.clear();
  double most = 1 - handle_.crossings();
  for (const int v : handle_.nodes()) {
    const int after = runs_.place[v], before = after == 0 ? count_ - 1 : after - 1;
    const int next = after + 1 == count_ ? 0 : after + 1;
    if (!handle_.has(runs_.tour[next])) {
      ends_.push_back(after);
      most += runs_.best_gain(after);
    }
    if (!handle_.has(runs_.tour[before])) {
      ends_.push_back(before);
      most += runs_.best_gain(before);
    }
  }
  return most;
}

// The runs over the handle's ends.
void CombSearch::list_intervals() {
  std::sort(ends_.begin(), ends_.end());
  int widest = -1, base = 0;  // the places count from the middle of the widest gap
  for (std::size_t k = 0; k < ends_.size(); k++) {
    const int gap = k + 1 < ends_.size() ? ends_[k + 1] - ends_[k] : ends_[0] + count_ - ends_[k];
    if (gap > widest) {
      widest = gap;
      base = (ends_[k] + gap / 2 + 1) % count_;
    }
  }
  intervals_.clear();
  for (const int end : ends_) {
    for (const Run& run : runs_.over(end)) {
      const int left = run.left < base ? run.left - base + count_ : run.left - base;
      const int right = run.right < base ? run.right - base + count_ : run.right - base;
      if (left < right) intervals_.push_back({left, right, run.gain - 1e-6 * (right - left), &run});
    }
  }
  std::sort(intervals_.begin(), intervals_.end(),
            [](const Interval& a, const Interval& b) { return a.right < b.right; });
}

// The best odd number of disjoint intervals.
double CombSearch::best_runs(double enough) {
  const double most = list_ends();
  if (most < -1 || most <= std::min(enough, least_)) return most;
  list_intervals();
  if (intervals_.empty()) return most;
  const std::size_t count = intervals_.size();
  choices_.resize(count + 1);
  choices_[0] = {{0, -99}, {false, false}, 0};
  for (std::size_t k = 1; k <= count; k++) {
    const Interval& interval = intervals_[k - 1];
    const auto earlier =
        std::lower_bound(intervals_.begin(), intervals_.begin() + static_cast<std::ptrdiff_t>(k) - 1,
                         interval.left, [](const Interval& a, int left) { return a.right < left; });
    Choice& choice = choices_[k];
    choice.before = static_cast<int>(earlier - intervals_.begin());
    for (int parity = 0; parity < 2; parity++) {
      const double with = choices_[choice.before].best[1 - parity] + interval.gain;
      choice.taken[parity] = with > choices_[k - 1].best[parity];
      choice.best[parity] = std::max(with, choices_[k - 1].best[parity]);
    }
  }
  const double violation = choices_[count].best[1] + 1 - handle_.crossings();
  if (violation <= least_) return violation;
  std::vector<int> chosen;
  for (int k = static_cast<int>(count), parity = 1; k > 0;) {
    if (!choices_[k].taken[parity]) {
      k--;
      continue;
    }
    chosen.push_back(k - 1);
    k = choices_[k].before;
    parity = 1 - parity;
  }
  if (chosen.size() < 3) return std::min(violation, 0.0);
  keep(violation, chosen);
  return violation;
}

void CombSearch::keep(double violation, const std::vector<int>& chosen) {
  FoundComb comb{violation, {handle_.nodes()}};
  for (const int k : chosen) comb.sets.push_back(runs_.nodes_of(*intervals_[k].run));
  found_.push_back(std::move(comb));
}

// Disjoint edges that leave the handle, an odd number of them, chosen greedily.
std::vector<CombSearch::Spoke> CombSearch::choose_spokes(double& gain) {
  std::vector<Spoke> spokes, chosen;
  for (const int v : handle_.nodes()) {
    for (const Edge& edge : graph_[v]) {
      if (!handle_.has(edge.to) && edge.value > 0.3) spokes.push_back({edge.value, v, edge.to});
    }
  }
  std::sort(spokes.begin(), spokes.end(), [](const Spoke& a, const Spoke& b) { return a.value > b.value; });
  Spoke spare{-1, 0, 0};
  for (const Spoke& spoke : spokes) {
    if (used_[spoke.inside] || used_[spoke.outside]) continue;
    if (spoke.value > 0.5) {
      used_[spoke.inside] = used_[spoke.outside] = 1;
      chosen.push_back(spoke);
      gain += 2 * spoke.value - 1;
    } else if (spare.value < 0) {
      spare = spoke;
    }
  }
  for (const Spoke& spoke : chosen) used_[spoke.inside] = used_[spoke.outside] = 0;
  if (chosen.size() % 2 == 1) return chosen;
  const double drop = chosen.empty() ? 9 : 2 * chosen.back().value - 1;
  const double put = spare.value > 0 ? 1 - 2 * spare.value : 9;
  gain -= std::min(drop, put);
  if (put <= drop) {
    if (spare.value > 0) chosen.push_back(spare);
  } else {
    chosen.pop_back();
  }
  return chosen;
}

// The same with edges as teeth.
double CombSearch::with_edges() {
  const int size = static_cast<int>(handle_.nodes().size());
  if (size < 2 || size > count_ - 3) return kNoComb;
  double gain = 0;
  const std::vector<Spoke> spokes = choose_spokes(gain);
  const double violation = gain + 1 - handle_.crossings();
  if (violation > least_ && spokes.size() >= 3 && spokes.size() % 2 == 1) {
    FoundComb comb{violation, {handle_.nodes()}};
    for (const Spoke& spoke : spokes) comb.sets.push_back({spoke.inside, spoke.outside});
    found_.push_back(std::move(comb));
  }
  return violation;
}

void CombSearch::seed(const NodeSet& set) {
  if (set.size() < 2 || static_cast<int>(set.size()) > count_ / 2 + 1) return;
  handle_.set(set);
  if (seen_.has(handle_.hash())) return;
  const double edges = with_edges();
  seeds_.emplace_back(std::max(edges, with_runs(kNoComb)), set);
}

// A part of the fractional edges without its nodes of degree 1.
void CombSearch::seed_without_ends(const NodeSet& part, double margin) {
  if (part.size() < 3 || part.size() >= 400) return;
  NodeSet inner;
  for (const int v : part) {
    int degree = 0;
    for (const Edge& edge : graph_[v]) degree += edge.value > margin && edge.value < 1 - margin ? 1 : 0;
    if (degree > 1) inner.push_back(v);
  }
  if (inner.size() < part.size()) seed(inner);
}

void CombSearch::seed_parts() {
  for (const double margin : {1e-6, 0.1, 0.2, 0.3, 0.4}) {
    const auto fractional = [&](double value) { return value > margin && value < 1 - margin; };
    for (const NodeSet& part : components(graph_, fractional)) {
      seed(part);
      seed_without_ends(part, margin);
    }
    for (const NodeSet& block : blocks(graph_, margin, 1 - margin)) seed(block);
    for (const NodeSet& part : components(graph_, [&](double value) { return value > margin; })) seed(part);
  }
}

bool CombSearch::fractional(int node) const {
  return std::any_of(graph_[node].begin(), graph_[node].end(),
                     [](const Edge& edge) { return edge.value > 0.01 && edge.value < 0.99; });
}

// Grows a handle from a node by the node that the most of the solution leads to.
void CombSearch::grow(int start, bool by_chance) {
  NodeSet set, touched, best_set;
  double best = kNoComb;
  handle_.clear();
  for (int node = start; node >= 0 && set.size() < 16;) {
    handle_.flip(node);
    set.push_back(node);
    for (const Edge& edge : graph_[node]) {
      back_[edge.to] += edge.value;
      touched.push_back(edge.to);
    }
    if (set.size() > 1 && !seen_.has(handle_.hash())) {
      const double runs = with_runs(kNoComb);
      const double violation = std::max(runs, with_edges());
      if (violation > best) {
        best = violation;
        best_set = set;
      }
    }
    node = -1;
    double most = 0;
    for (const int v : touched) {
      if (handle_.has(v) || back_[v] <= 1e-6) continue;
      const double nearness = back_[v] * (by_chance ? 0.3 + random_.unit() : 1);
      if (nearness > most) {
        most = nearness;
        node = v;
      }
    }
  }
  for (const int v : touched) back_[v] = 0;
  if (!best_set.empty()) seeds_.emplace_back(best, best_set);
}

// Puts the path of whole edges at a node into the handle, or takes it out.
void CombSearch::flip_path(int node, bool inside) {
  for (const int v : paths_[path_of_[node]]) {
    if (handle_.has(v) != inside) handle_.flip(v);
  }
}

// The nodes at edges of the solution that leave the handle.
std::vector<int> CombSearch::ends_of_handle() {
  std::vector<int> nodes;
  for (const int v : handle_.nodes()) {
    for (const Edge& edge : graph_[v]) {
      if (handle_.has(edge.to)) continue;
      for (const int end : {v, edge.to}) {
        if (used_[end]) continue;
        used_[end] = 1;
        nodes.push_back(end);
      }
    }
  }
  for (const int v : nodes) used_[v] = 0;
  return nodes;
}

void CombSearch::look(int node, bool path, Step& best) {
  const double violation = with_runs(best.violation);
  if (violation > best.violation) best = {violation, node, path};
}

// The best handle that is new and differs by a node, or by a path of whole edges.
CombSearch::Step CombSearch::best_step() {
  const std::vector<int> nodes = ends_of_handle();
  Step best;
  for (const int v : nodes) {
    if (seen_.has(handle_.hash() + handle_.hash_change(v))) continue;
    handle_.flip(v);
    look(v, false, best);
    handle_.flip(v);
  }
  std::vector<int> tried, flipped;
  for (const int v : nodes) {
    const NodeSet& path = paths_[path_of_[v]];
    if (path.size() < 2 || path.size() > effort_.reach.longest_path) continue;
    if (std::find(tried.begin(), tried.end(), path_of_[v]) != tried.end()) continue;
    tried.push_back(path_of_[v]);
    flipped.clear();
    const bool inside = !handle_.has(v);
    std::uint64_t hash = handle_.hash();
    for (const int u : path) {
      if (handle_.has(u) == inside) continue;
      flipped.push_back(u);
      hash += handle_.hash_change(u);
    }
    if (seen_.has(hash)) continue;
    for (const int u : flipped) handle_.flip(u);
    look(v, true, best);
    for (const int u : flipped) handle_.flip(u);
  }
  return best;
}

void CombSearch::climb(const NodeSet& start) {
  handle_.set(start);
  double best = with_runs(kNoComb);
  int patience = kCombs.patience;
  const std::size_t largest = effort_.reach.largest_handle;
  for (int k = 0; k < kCombs.most_steps && patience > 0 && handle_.nodes().size() < largest; k++) {
    const Step step = best_step();
    if (step.node < 0) break;
    if (step.path) {
      flip_path(step.node, !handle_.has(step.node));
    } else {
      handle_.flip(step.node);
    }
    with_edges();
    patience = step.violation > best + 1e-6 ? kCombs.patience : patience - 1;
    best = std::max(best, step.violation);
  }
  handle_.clear();
}

std::vector<FoundComb> CombSearch::find(const std::vector<NodeSet>& known,
                                        const std::function<bool()>& stop) {
  seed_parts();
  for (const NodeSet& set : known) seed(set);
  for (int v = 0; v < count_; v++) {
    if (!fractional(v)) continue;
    if (stop()) break;
    for (int k = 0; k < effort_.growths; k++) grow(v, k > 0);
  }
  handle_.clear();
  std::stable_sort(seeds_.begin(), seeds_.end(), [](auto& a, auto& b) { return a.first > b.first; });
  const std::size_t climbs = std::min(seeds_.size(), static_cast<std::size_t>(effort_.climbs));
  for (std::size_t k = 0; k < climbs && !stop(); k++) climb(seeds_[k].second);
  std::stable_sort(found_.begin(), found_.end(), [](auto& a, auto& b) { return a.violation > b.violation; });
  return std::move(found_);
}
}  // namespace certify
