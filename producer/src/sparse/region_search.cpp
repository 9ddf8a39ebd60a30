#include "sparse/region_search.h"

#include <algorithm>
#include <cmath>
#include <numeric>

#include "sparse/sparse_parameters.h"
#include "tours/eax.h"

namespace sparse {
using certify::Instance;
using certify::Matrix;
using certify::Weight;

namespace {
constexpr std::size_t kFewest = 9;  // nodes of a region that edge assembly takes

// Where the parts of a sequence begin. The first part is this share of one.
std::vector<std::size_t> cuts_of(std::size_t count, std::size_t size, double share) {
  if (count <= size) return {0, count};
  const std::size_t parts = std::max<std::size_t>(1, (count + size / 2) / size);
  const double part = static_cast<double>(count) / static_cast<double>(parts);
  std::vector<std::size_t> cuts{0};
  for (std::size_t k = 0; k <= parts; k++) {
    const auto cut = static_cast<std::size_t>((static_cast<double>(k) + share) * part);
    if (cut > cuts.back() && cut < count) cuts.push_back(cut);
  }
  cuts.push_back(count);
  return cuts;
}

// The nodes in the order of these values, in parts of about this size.
std::vector<NodeSet> split(NodeSet nodes, const std::vector<double>& values, std::size_t size, double share) {
  std::sort(nodes.begin(), nodes.end(),
            [&](int a, int b) { return values[a] != values[b] ? values[a] < values[b] : a < b; });
  const std::vector<std::size_t> cuts = cuts_of(nodes.size(), size, share);
  std::vector<NodeSet> parts;
  for (std::size_t k = 1; k < cuts.size(); k++) {
    parts.emplace_back(nodes.begin() + static_cast<std::ptrdiff_t>(cuts[k - 1]),
                       nodes.begin() + static_cast<std::ptrdiff_t>(cuts[k]));
  }
  return parts;
}
}  // namespace

std::vector<NodeSet> regions_of(const Problem& problem, NodeSet nodes, int size, int pass) {
  const potentials::Points& points = problem.points();
  constexpr double kGolden = 0.6180339887;  // its multiples are far from each other
  const double share = std::fmod(pass * kGolden, 1);
  const bool turned = pass % 2 == 1;  // rows first
  const std::vector<double>& first = turned ? points.y : points.x;
  const std::vector<double>& second = turned ? points.x : points.y;
  const auto wide = static_cast<std::size_t>(std::sqrt(static_cast<double>(nodes.size()) * size));
  std::vector<NodeSet> regions;
  for (NodeSet& column : split(std::move(nodes), first, std::max<std::size_t>(1, wide), share)) {
    for (NodeSet& region : split(std::move(column), second, static_cast<std::size_t>(size), share)) {
      regions.push_back(std::move(region));
    }
  }
  return regions;
}

namespace {
// A point in the plane, in counts of 10^-9.
std::pair<Weight, Weight> point_of(const Problem& problem, int node) {
  const potentials::Points& points = problem.points();
  return {std::llround(points.x[node] * 1e9), std::llround(points.y[node] * 1e9)};
}

// The places of these lengths, the longest first.
std::vector<int> longest_first(const std::vector<double>& lengths) {
  std::vector<int> places(lengths.size());
  std::iota(places.begin(), places.end(), 0);
  std::stable_sort(places.begin(), places.end(), [&](int a, int b) { return lengths[a] > lengths[b]; });
  return places;
}
}  // namespace

NodeSet nodes_at_long_edges(const Problem& problem, const Tour& tour,
                            const std::vector<potentials::Edge>& graph, std::size_t count) {
  NodeSet nodes;
  std::vector<char> inside(tour.size(), 0);
  const auto add = [&](int node) {
    if (inside[node] == 0) nodes.push_back(node);
    inside[node] = 1;
  };
  std::vector<double> of_tour, of_graph;
  for (const auto& [a, b] : certify::arcs_of(tour)) of_tour.push_back(problem.cost(a, b));
  for (const potentials::Edge& edge : graph) of_graph.push_back(problem.cost(edge.a, edge.b));
  const std::size_t all = tour.size();
  for (const int place : longest_first(of_tour)) {
    if (nodes.size() >= count / 2) break;
    for (const std::size_t step : {all - 1, std::size_t{0}, std::size_t{1}, std::size_t{2}})
      add(tour[(static_cast<std::size_t>(place) + step) % all]);
  }
  for (const int place : longest_first(of_graph)) {
    if (nodes.size() >= count) break;
    add(graph[place].a);
    add(graph[place].b);
  }
  return nodes;
}

// The places of a region's nodes in the tour, in its order.
std::vector<int> RegionSearch::places_of(const NodeSet& region) const {
  std::vector<char> inside(tour_.size(), 0);
  for (const int v : region) inside[v] = 1;
  std::vector<int> places;
  for (std::size_t k = 0; k < tour_.size(); k++) {
    if (inside[tour_[k]] != 0) places.push_back(static_cast<int>(k));
  }
  return places;
}

// The nodes at these places of the tour, with a fixed edge for each path outside. Fixed edges of the problem
// are fixed too. Points in the plane are there so that edge assembly tries edges to each side.
Instance RegionSearch::part_of(const std::vector<int>& places) const {
  const int nodes = static_cast<int>(places.size());
  Instance part{Matrix(nodes), {}};
  for (int i = 0; i < nodes; i++) {
    for (int j = 0; j < i; j++) {
      part.weights.set(i, j, std::llround(problem_.cost(tour_[places[i]], tour_[places[j]])));
    }
    if (problem_.points().axes == 2) part.points.push_back(point_of(problem_, tour_[places[i]]));
    const int next = i + 1 == nodes ? 0 : i + 1;
    const bool beside = (places[i] + 1) % problem_.nodes() == places[next];
    if (!beside || problem_.is_fixed(tour_[places[i]], tour_[places[next]])) {
      part.fixed.emplace_back(std::minmax(i, next));
    }
  }
  std::sort(part.fixed.begin(), part.fixed.end());
  return part;
}

// What edge assembly looks at. The part's own matrix is used up.
Matrix RegionSearch::costs_of(Instance& part, const std::vector<int>& places) const {
  std::vector<Weight> potentials;
  potentials.reserve(places.size());
  for (const int place : places) potentials.push_back(-std::llround(numbers_[tour_[place]]));
  part.weights = certify::with_potentials(std::move(part.weights), potentials);
  return certify::with_fixed_lowered(part.weights, part.fixed);
}

// The whole tour where the region's nodes are in this order. Between nodes that are neighbours among them the
// path outside is walked forward or back.
Tour RegionSearch::whole_of(const Tour& order, const std::vector<int>& places) const {
  const int nodes = static_cast<int>(places.size());
  const int all = problem_.nodes();
  Tour whole;
  whole.reserve(tour_.size());
  for (int k = 0; k < nodes; k++) {
    const int i = order[k];
    const int j = order[k + 1 == nodes ? 0 : k + 1];
    whole.push_back(tour_[places[i]]);
    const bool forward = j == (i + 1) % nodes;
    if (!forward && i != (j + 1) % nodes) continue;
    const int step = forward ? 1 : all - 1;
    for (int at = (places[i] + step) % all; at != places[j]; at = (at + step) % all)
      whole.push_back(tour_[at]);
  }
  return whole;
}

// The tour isn't in the population, of which it would soon be the whole, but takes what is better in what
// comes of it.
void RegionSearch::improve(const NodeSet& region, const std::function<bool()>& stop) {
  const std::vector<int> places = places_of(region);
  if (places.size() < kFewest) return;
  Instance part = part_of(places);
  if (part.fixed.size() + 2 > places.size()) return;
  const Matrix costs = costs_of(part, places);
  Tour own(places.size());
  std::iota(own.begin(), own.end(), 0);
  certify::Eax eax(costs, part, kSparse.population, seed_++);
  const Tour found = eax.run(stop, [](Weight) {});
  const Tour order = eax.merge(own, found, stop);
  if (!part.allows(order)) return;
  Tour whole = whole_of(order, places);
  if (whole.size() == tour_.size() && problem_.length(whole) < problem_.length(tour_))
    tour_ = std::move(whole);
}

void RegionSearch::pass_over(const std::vector<NodeSet>& regions, const std::function<bool()>& stop) {
  for (const NodeSet& region : regions) {
    if (stop()) return;
    improve(region, stop);
  }
}
}  // namespace sparse
