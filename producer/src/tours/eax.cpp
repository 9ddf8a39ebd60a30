#include "tours/eax.h"

#include <algorithm>
#include <cmath>
#include <limits>
#include <numeric>

#include "running/parameters.h"
#include "running/refusal.h"
#include "running/threads.h"
#include "tours/local_search.h"

namespace certify {
namespace {
constexpr Weight kNone = std::numeric_limits<Weight>::max();

// The edges of two tours that are in one of them alone, from which AB-cycles are taken.
class CycleFinder {
 public:
  CycleFinder(const Links& a, const Links& b, Random& random)
      : random_(random), of_a_(a.size()), of_b_(a.size()), at_(2, std::vector<int>(a.size(), -1)) {
    for (std::size_t v = 0; v < a.size(); v++) {
      for (int slot = 0; slot < 2; slot++) {
        if (!has(b[v], a[v][slot])) of_a_[v].add(a[v][slot]);
        if (!has(a[v], b[v][slot])) of_b_[v].add(b[v][slot]);
      }
      if (of_a_[v].count > 0) active_.push_back(static_cast<int>(v));
    }
  }
  std::vector<Cycle> find() {
    std::vector<Cycle> cycles;
    while (!path_.empty() || begin()) step(cycles);
    return cycles;
  }

 private:
  struct Ends {
    std::array<int, 2> to{};
    int count = 0;
    void add(int node) { to[count++] = node; }
    void drop(int slot) { to[slot] = to[--count]; }
  };
  static bool has(const std::array<int, 2>& pair, int node) { return pair[0] == node || pair[1] == node; }
  static int take(std::vector<Ends>& ends, int v, Random& random) {
    const int slot = ends[v].count > 1 ? random.below(2) : 0;
    const int w = ends[v].to[slot];
    ends[v].drop(slot);
    ends[w].drop(ends[w].to[0] == v ? 0 : 1);
    return w;
  }
  bool begin() {
    while (!active_.empty()) {
      const int k = random_.below(active_.size());
      const int v = active_[k];
      if (of_a_[v].count > 0) {
        path_.push_back(v);
        at_[0][v] = 0;
        return true;
      }
      active_[k] = active_.back();
      active_.pop_back();
    }
    return false;
  }
  // Goes on by one edge, and closes a cycle where the node was met at an even distance.
  void step(std::vector<Cycle>& cycles) {
    const int last = static_cast<int>(path_.size()) - 1;
    const int v = path_.back();
    if (last == 0 && of_a_[v].count == 0) {
      at_[0][v] = -1;
      path_.clear();
      return;
    }
    const int w = take(last % 2 == 0 ? of_a_ : of_b_, v, random_);
    std::vector<int>& met = at_[(last + 1) % 2];
    const int from = met[w];
    if (from < 0) {
      path_.push_back(w);
      met[w] = last + 1;
      return;
    }
    Cycle cycle(path_.begin() + from, path_.end());
    if (from % 2 == 1) std::rotate(cycle.begin(), cycle.begin() + 1, cycle.end());
    cycles.push_back(cycle);
    for (int k = from + 1; k <= last; k++) at_[k % 2][path_[k]] = -1;
    path_.resize(from + 1);
  }

  Random& random_;
  std::vector<Ends> of_a_, of_b_;
  std::vector<std::vector<int>> at_;  // the place of a node in the path, by its parity
  std::vector<int> active_, path_;
};
}  // namespace

Eax::Eax(const Matrix& costs, const Instance& instance, int population, std::uint64_t seed)
    : costs_(costs),
      paths_(paths_of(instance.fixed, costs.nodes())),
      population_(population),
      random_(seed),
      near_(nearest(costs, kTours.near)),
      frequency_(static_cast<std::size_t>(costs.nodes()) * costs.nodes(), 0) {
  add_by_quadrants(costs, instance.points, kTours.near_in_quadrant, near_);
}

Tour Eax::random_tour() {
  Tour tour;
  random_.shuffle(paths_);
  for (const std::vector<int>& path : paths_) {
    if (random_.below(2) == 0) {
      tour.insert(tour.end(), path.begin(), path.end());
    } else {
      tour.insert(tour.end(), path.rbegin(), path.rend());
    }
  }
  return tour;
}

void Eax::add_member(const Tour& tour) {
  const std::size_t nodes = tour.size();
  Links links(nodes);
  for (std::size_t k = 0; k < nodes; k++) {
    links[tour[k]] = {tour[(k + 1) % nodes], tour[(k + nodes - 1) % nodes]};
  }
  members_.push_back(links);
  lengths_.push_back(length_of(costs_, tour));
  count_edges(edges_of(tour), 1);
}

void Eax::count_edges(const std::vector<Pair>& edges, int by) {
  for (const Pair& edge : edges) frequency(edge) = static_cast<std::uint16_t>(frequency(edge) + by);
}

double Eax::entropy_change(const Crossover& crossover) const {
  const double size = static_cast<double>(members_.size());
  const auto term = [&](int count) { return count <= 0 ? 0 : -count / size * std::log(count / size); };
  double change = 0;
  for (const Pair& edge : crossover.removed()) change += term(frequency(edge) - 1) - term(frequency(edge));
  for (const Pair& edge : crossover.added()) change += term(frequency(edge) + 1) - term(frequency(edge));
  return change;
}

Eax::Child Eax::cross(int a, int b, Random random) const {
  Child best;
  std::vector<Cycle> cycles = CycleFinder(members_[a], members_[b], random).find();
  if (cycles.empty()) return best;
  Links links = members_[a];
  Crossover crossover(costs_, near_);
  crossover.begin(links, order_of(links));
  double best_score = 0;
  int chosen = -1;
  const int tries = std::min<int>(kTours.children, static_cast<int>(cycles.size()));
  for (int k = 0; k < tries; k++) {
    std::swap(cycles[k], cycles[k + random.below(cycles.size() - k)]);
    if (crossover.apply(cycles[k]) && crossover.change() < 0) {
      const double loss = -entropy_change(crossover);
      const double score = static_cast<double>(-crossover.change()) / std::max(loss, 1e-9);
      if (score > best_score) {
        best_score = score;
        chosen = k;
      }
    }
    crossover.undo();
  }
  if (chosen < 0) return best;
  crossover.apply(cycles[chosen]);
  return {std::move(links), crossover.change(), crossover.removed(), crossover.added()};
}

// Replaces each member by its best child with the next one, some members at once.
void Eax::cross_all(const std::vector<int>& order, const std::function<bool()>& stop) {
  std::vector<Child> children;
  for (std::size_t first = 0; first < order.size() && !stop(); first += kTours.at_once) {
    const std::size_t count = std::min(kTours.at_once, order.size() - first);
    std::vector<Random> chances;
    for (std::size_t k = 0; k < count; k++) chances.emplace_back(random_.next());
    children.assign(count, {});
    for_each_at_once(count, [&](std::size_t k) {
      children[k] = cross(order[first + k], order[(first + k + 1) % order.size()], chances[k]);
    });
    for (std::size_t k = 0; k < count; k++) {
      if (children[k].links.empty()) continue;
      members_[order[first + k]] = std::move(children[k].links);
      lengths_[order[first + k]] += children[k].change;
      count_edges(children[k].removed, -1);
      count_edges(children[k].added, 1);
    }
  }
}

void Eax::keep_snapshots() {
  for (int k = 0; k < 3; k++) snapshots_.push_back(order_of(members_[random_.below(members_.size())]));
}

void Eax::add_members(const std::function<bool()>& stop) {
  while (static_cast<int>(members_.size()) < population_ && (members_.empty() || !stop())) {
    std::vector<Tour> tours(
        std::min(kTours.at_once, static_cast<std::size_t>(population_) - members_.size()));
    for (Tour& tour : tours) tour = random_tour();
    for_each_at_once(tours.size(), [&](std::size_t k) { LocalSearch(costs_, near_).improve(tours[k]); });
    for (const Tour& tour : tours) add_member(tour);
  }
}

Tour Eax::run(const std::function<bool()>& stop, const std::function<void(Weight)>& show) {
  add_members(stop);
  std::vector<int> order(members_.size());
  std::iota(order.begin(), order.end(), 0);
  Weight best = *std::min_element(lengths_.begin(), lengths_.end());
  for (int generation = 0, stall = 0; generation < kTours.most_generations && stall < kTours.patience;
       generation++) {
    random_.shuffle(order);
    cross_all(order, stop);
    const Weight now = *std::min_element(lengths_.begin(), lengths_.end());
    stall = now < best ? 0 : stall + 1;
    best = now;
    show(best);
    double excess = 0;
    for (const Weight length : lengths_) excess += static_cast<double>(length - best);
    excess /= static_cast<double>(lengths_.size());
    const bool mixed = excess > 1e-5 * static_cast<double>(std::abs(best));
    if (generation % 4 == 2 && generation >= 6 && mixed) keep_snapshots();
    if (excess < 1e-3 || stop()) break;
  }
  return order_of(members_[std::min_element(lengths_.begin(), lengths_.end()) - lengths_.begin()]);
}

Tour Eax::merge(const Tour& one, const Tour& other, const std::function<bool()>& stop) {
  members_.clear();
  lengths_.clear();
  std::fill(frequency_.begin(), frequency_.end(), static_cast<std::uint16_t>(0));
  population_ = 2;
  add_member(one);
  add_member(other);
  return run(stop, [](Weight) {});
}

std::vector<Pair> Eax::edges() const {
  std::vector<Pair> edges;
  for (const Links& links : members_) {
    for (std::size_t v = 0; v < links.size(); v++) {
      for (const int w : links[v]) {
        if (static_cast<int>(v) < w) edges.emplace_back(v, w);
      }
    }
  }
  std::sort(edges.begin(), edges.end());
  edges.erase(std::unique(edges.begin(), edges.end()), edges.end());
  return edges;
}
}  // namespace certify
