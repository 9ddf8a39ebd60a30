// Shortens a tour of an ATSP by exchanges of three arcs that keep the direction of each part, over neighbour
// lists, with kicks by a double bridge of short parts.
// Sources: P. Kanellakis and C. Papadimitriou, Local search for the asymmetric traveling salesman problem
// (1980); O. Martin, S. Otto and E. Felten, Large-step Markov chains for the traveling salesman problem
// (1991).
#pragma once
#include <functional>

#include "graphs/tour.h"
#include "running/random.h"

namespace certify {
class ArcSearch {
 public:
  // near has the nodes to go on to from each node; the costs decide which is shorter.
  ArcSearch(const Matrix& costs, const Neighbours& near, std::uint64_t seed);
  void improve(Tour& tour);
  // The best tour that this many kicks in a row without a shorter tour lead to.
  Tour kicked(const Tour& start, int patience, const std::function<bool()>& stop);

 private:
  int next(int node) const { return tour_[place_[node] + 1 == count_ ? 0 : place_[node] + 1]; }
  int before(int node) const { return tour_[place_[node] == 0 ? count_ - 1 : place_[node] - 1]; }
  // How many places behind one node another one is.
  int ahead(int node, int other) const {
    const int places = place_[other] - place_[node];
    return places < 0 ? places + count_ : places;
  }
  void take(const Tour& tour);
  void queue(int node);
  void improve_queued();
  bool shorten(int node);
  bool close(int a, int d, Weight gain);
  void exchange(int a, int c, int e);
  void kick();

  const Matrix& costs_;
  Neighbours near_;
  Random random_;
  int count_ = 0;
  Tour tour_;
  std::vector<int> place_;
  Weight length_ = 0;
  std::vector<int> queue_;
  std::vector<char> queued_;
  std::vector<int> moved_;
};
}  // namespace certify
