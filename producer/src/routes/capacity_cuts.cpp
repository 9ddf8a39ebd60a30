#include "routes/capacity_cuts.h"

#include <algorithm>
#include <numeric>

#include "routes/route_parameters.h"

namespace certify::routes {
namespace {
constexpr double kUnlinked = 1e-9;

int root_of(std::vector<int>& roots, int node) {
  while (roots[node] != node) node = roots[node] = roots[roots[node]];
  return node;
}
}  // namespace

// Customers that a whole link joins become one part.
void CapacityCuts::shrink(const Graph& support) {
  const int nodes = instance_.nodes();
  std::vector<int> roots(nodes);
  std::iota(roots.begin(), roots.end(), 0);
  for (int v = 1; v < nodes; v++) {
    for (const Edge& edge : support[v]) {
      if (edge.to > v && edge.value > 1 - 1e-6) roots[root_of(roots, v)] = root_of(roots, edge.to);
    }
  }
  std::vector<int> part_of(nodes, -1), numbers(nodes, -1);
  members_.clear();
  for (int v = 1; v < nodes; v++) {
    int& number = numbers[root_of(roots, v)];
    if (number < 0) {
      number = static_cast<int>(members_.size());
      members_.emplace_back();
    }
    part_of[v] = number;
    members_[number].push_back(v);
  }
  link_parts(support, part_of);
}

void CapacityCuts::link_parts(const Graph& support, const std::vector<int>& part_of) {
  const std::size_t parts = members_.size();
  links_.assign(parts, {});
  degrees_.assign(parts, 0);
  demands_.assign(parts, 0);
  std::map<Pair, double> between;
  for (int v = 1; v < instance_.nodes(); v++) {
    demands_[part_of[v]] += instance_.demands[v];
    for (const Edge& edge : support[v]) {
      if (edge.to != 0 && part_of[edge.to] == part_of[v]) continue;
      degrees_[part_of[v]] += edge.value;
      if (edge.to != 0) between[Pair(part_of[v], part_of[edge.to])] += edge.value;
    }
  }
  for (const auto& [pair, value] : between) links_[pair.first].push_back({pair.second, value});
  inside_.assign(parts, 0);
  inward_.assign(parts, 0);
  forbidden_.assign(parts, 0);
}

// As many routes at least serve customers of this demand. Most demands that are asked for need as many routes
// as the set at hand, and that takes no division.
int CapacityCuts::routes_for(Weight demand) const {
  const Weight most = routes_ * instance_.capacity;
  if (demand <= most && demand > most - instance_.capacity) return routes_;
  return instance_.fewest_routes(demand);
}

// Puts a part into the set, or takes it out.
void CapacityCuts::toggle(int part) {
  const bool add = inside_[part] == 0;
  crossings_ += add ? grown_by(part) : -grown_by(part);
  demand_ += add ? demands_[part] : -demands_[part];
  routes_ = routes_for(demand_);
  inside_[part] = static_cast<char>(add);
  if (add) {
    set_.push_back(part);
  } else {
    set_.erase(std::find(set_.begin(), set_.end(), part));
  }
  for (const Edge& edge : links_[part]) {
    if (inward_[edge.to] == 0) touched_.push_back(edge.to);
    inward_[edge.to] += add ? edge.value : -edge.value;
  }
}

void CapacityCuts::clear() {
  for (const int part : set_) {
    inside_[part] = 0;
    inward_[part] = 0;
  }
  for (const int part : touched_) inward_[part] = 0;
  set_.clear();
  touched_.clear();
  crossings_ = 0;
  demand_ = 0;
  routes_ = 1;
}

void CapacityCuts::record() {
  const double slack = crossings_ - 2.0 * routes();
  const bool between = slack > 0.2 && slack < 1.8 && between_.size() < kCapacityCuts.most_between;
  if (slack > -least_ && !between) return;
  NodeSet set;
  for (const int part : set_) set.insert(set.end(), members_[part].begin(), members_[part].end());
  std::sort(set.begin(), set.end());
  if (static_cast<int>(set.size()) == instance_.nodes() - 1 || !met_.insert(set).second) return;
  (between ? between_ : found_).push_back({std::move(set), slack});
}

// Without the depot. All of a component that the depot isn't linked to is crossed by nothing.
void CapacityCuts::add_components() {
  std::vector<char> seen(members_.size(), 0);
  for (std::size_t part = 0; part < members_.size(); part++) {
    if (seen[part] != 0) continue;
    std::vector<int> component{static_cast<int>(part)};
    seen[part] = 1;
    for (std::size_t k = 0; k < component.size(); k++) {
      for (const Edge& edge : links_[component[k]]) {
        if (seen[edge.to] == 0) component.push_back(edge.to);
        seen[edge.to] = 1;
      }
    }
    for (const int member : component) toggle(member);
    record();
    clear();
  }
}

int CapacityCuts::best_to_add(Rule rule) const {
  int best = -1;
  double least = 0;
  const auto capacity = static_cast<double>(instance_.capacity);
  for (const int part : touched_) {
    if (inside_[part] != 0 || inward_[part] < kUnlinked) continue;
    const double filled = static_cast<double>(demands_[part]) / capacity;
    double key = -inward_[part];
    if (rule == Rule::kDensity) key = grown_by(part) - 2 * filled;
    if (rule == Rule::kSlack) {
      key = grown_by(part) - 2 * routes_for(demand_ + demands_[part]) - 1e-3 * filled;
    }
    if (best >= 0 && key >= least) continue;
    best = part;
    least = key;
  }
  return best;
}

// The part that goes in or out so that the crossings are least, while as many routes are needed.
int CapacityCuts::best_move(int routes, int step) const {
  int best = -1;
  double least = 0;
  const auto consider = [&](int part) {
    if (forbidden_[part] > step) return;
    const bool leaves = inside_[part] != 0;
    const Weight demand = leaves ? demand_ - demands_[part] : demand_ + demands_[part];
    if (demand <= 0 || routes_for(demand) != routes) return;
    if (leaves ? set_.size() < 2 : inward_[part] < kUnlinked) return;
    const double key = leaves ? -grown_by(part) : grown_by(part) - 1e-4 * static_cast<double>(demands_[part]);
    if (best >= 0 && key >= least) return;
    best = part;
    least = key;
  };
  for (const int part : touched_) consider(part);
  for (const int part : set_) consider(part);
  return best;
}

// A tabu search among the sets that need as many routes. The set is afterwards as it was.
void CapacityCuts::search_around() {
  const std::vector<int> before = set_;
  const int needed = routes();
  std::vector<int> moved;
  for (int step = 1; step <= kCapacityCuts.tabu_steps; step++) {
    const int part = best_move(needed, step);
    if (part < 0) break;
    toggle(part);
    forbidden_[part] = step + kCapacityCuts.tabu_rest;
    moved.push_back(part);
    record();
  }
  for (const int part : moved) forbidden_[part] = 0;
  for (const int part : std::vector<int>(set_)) {
    if (std::find(before.begin(), before.end(), part) == before.end()) toggle(part);
  }
  for (const int part : before) {
    if (inside_[part] == 0) toggle(part);
  }
}

void CapacityCuts::grow(int seed, Rule rule, bool search) {
  toggle(seed);
  record();
  const std::size_t most = std::min(members_.size(), kCapacityCuts.largest_set);
  while (set_.size() < most) {
    const int part = best_to_add(rule);
    if (part < 0) break;
    const int before = routes();
    toggle(part);
    record();
    if (search && routes() > before) search_around();
  }
  clear();
}

std::vector<CapacityCut> CapacityCuts::violated(const Graph& support, bool thorough, double least) {
  least_ = least;
  met_.clear();
  found_.clear();
  between_.clear();
  shrink(support);
  add_components();
  std::vector<int> order(members_.size());
  std::iota(order.begin(), order.end(), 0);
  random_.shuffle(order);
  for (const int part : order) {
    grow(part, Rule::kDensity, false);
    grow(part, Rule::kSlack, thorough);
    if (thorough) grow(part, Rule::kLinks, true);
    if (found_.size() > kCapacityCuts.enough) break;
  }
  std::sort(found_.begin(), found_.end(), [](const CapacityCut& a, const CapacityCut& b) {
    return a.slack != b.slack ? a.slack < b.slack : a.set < b.set;
  });
  return found_;
}
}  // namespace certify::routes
