// Short tours of up to 16 atoms, where the distance of two atoms is a sum of floats: rows for the linear
// programs of quotient cuts.
#pragma once
#include <array>
#include <cstdint>
#include <vector>

#include "cuts/bonds.h"

namespace certify {
using AtomTour = std::vector<int>;

class AtomTours {
 public:
  // The distances are sums over sets of atoms, each as much as its multiplier.
  AtomTours(int atoms, const std::vector<std::pair<std::uint32_t, double>>& multipliers);
  // Shorter tours than this that local search finds from others, the shortest first.
  std::vector<AtomTour> by_local_search(const std::vector<AtomTour>& from, float below,
                                        std::size_t most) const;
  // The shortest tours with different ends, if they are shorter than this.
  std::vector<AtomTour> shortest(float below, std::size_t most) const;

 private:
  float length_of(const AtomTour& tour) const;
  bool turn_part(AtomTour& tour) const;
  bool move_atom(AtomTour& tour) const;
  std::vector<int> merged(std::vector<int>& first_of) const;

  int atoms_;
  std::vector<std::vector<float>> distance_;
};
}  // namespace certify
