// Shortens a tour region by region, by edge assembly over the small matrix of each: the paths of the tour
// outside of a region are fixed edges between its nodes.
// Sources: R. M. Karp, Probabilistic analysis of partitioning algorithms for the TSP in the plane (1977), for
// regions; K. Helsgaun, General k-opt submoves for the Lin-Kernighan TSP heuristic (2009), for tours of parts
// that shorten a whole one.
#pragma once
#include <functional>

#include "points/problem.h"
#include "reading/instance.h"

namespace sparse {
using certify::NodeSet;
using certify::Tour;
using potentials::Problem;

// Parts of these nodes of about this size, by columns of equal numbers and by rows in them. Each pass has
// other borders.
std::vector<NodeSet> regions_of(const Problem& problem, NodeSet nodes, int size, int pass);

// About as many nodes: half of them around the longest edges of a tour, the others at the longest ones of a
// graph. Where clusters lie far apart these edges are between clusters, and a region of near nodes has too
// few of them to join others.
NodeSet nodes_at_long_edges(const Problem& problem, const Tour& tour,
                            const std::vector<potentials::Edge>& graph, std::size_t count);

class RegionSearch {
 public:
  // Costs are looked at with these numbers of the nodes added, which leads to short tours sooner.
  RegionSearch(const Problem& problem, const std::vector<double>& numbers, Tour tour, std::uint64_t seed)
      : problem_(problem), numbers_(numbers), tour_(std::move(tour)), seed_(seed) {}
  // Once over these regions. True from stop ends it early.
  void pass_over(const std::vector<NodeSet>& regions, const std::function<bool()>& stop);
  const Tour& tour() const { return tour_; }

 private:
  void improve(const NodeSet& region, const std::function<bool()>& stop);
  std::vector<int> places_of(const NodeSet& region) const;
  certify::Matrix costs_of(certify::Instance& part, const std::vector<int>& places) const;
  certify::Instance part_of(const std::vector<int>& places) const;
  Tour whole_of(const Tour& order, const std::vector<int>& places) const;

  const Problem& problem_;
  const std::vector<double>& numbers_;
  Tour tour_;
  std::uint64_t seed_;
};
}  // namespace sparse
