// Instances and tours, read from the canonical text that `tsp convert` prints.
#pragma once
#include <algorithm>
#include <string>
#include <vector>

#include "graphs/tour.h"
#include "reading/canonical.h"
#include "running/command_line.h"

namespace certify {
constexpr int kMostNodes = 5000;  // of a matrix

// An instance of TYPE TSP, or of TYPE ATSP, which is directed: there a pair is an arc from its first node.
struct Instance {
  Matrix weights;
  std::vector<Pair> fixed;  // each once; of a TSP the smaller node first
  bool directed = false;
  bool rounded = false;  // the weights are rounded distances of points that aren't all the same
  std::vector<std::pair<Weight, Weight>> points{};  // in the plane, where there are such

  int nodes() const { return weights.nodes(); }
  // The pairs of a tour, of a TSP each with the smaller node first.
  std::vector<Pair> links_of(const Tour& tour) const { return directed ? arcs_of(tour) : edges_of(tour); }
  Pair link(int from, int to) const { return directed ? Pair(from, to) : Pair(std::minmax(from, to)); }
  // Whether a tour uses all fixed pairs.
  bool allows(const Tour& tour) const;
};

// From the canonical text of a file of TYPE TSP or ATSP.
Instance read_instance(const std::string& tsp, const std::string& path, const Canonical& file);
// The matrix of a file whose EDGE_WEIGHT_TYPE is EXPLICIT. Throws Refusal where that of a TSP isn't
// symmetric.
Matrix read_matrix(const std::string& tsp, const std::string& path, const Canonical& file);
// The tour that is named, in any form that `tsp solution` reads.
Tour read_tour(const std::string& tsp, const CommonOptions& files, const Instance& instance);
// The same, of this many nodes, whether or not it uses all fixed edges.
Tour read_order(const std::string& tsp, const CommonOptions& files, int nodes);
}  // namespace certify
