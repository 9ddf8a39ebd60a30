// The canonical text of a file, which `tsp convert` prints: its keywords, its sections, and their words.
#pragma once
#include <array>
#include <map>
#include <string>
#include <string_view>
#include <vector>

#include "graphs/tour.h"

namespace certify {
class Canonical {
 public:
  explicit Canonical(std::string text);
  Canonical(const Canonical&) = delete;
  Canonical& operator=(const Canonical&) = delete;
  // The first word after a keyword, or nothing.
  std::string_view value(std::string_view keyword) const;
  // All that follows a section's name, or a keyword. Throws Refusal where there is none.
  std::string_view section(std::string_view name) const;
  bool has(std::string_view name) const { return parts_.find(name) != parts_.end(); }
  int nodes() const;

 private:
  std::string text_;
  std::map<std::string_view, std::string_view> parts_;
};

// The words of a section, one after the other.
class Words {
 public:
  explicit Words(std::string_view text) : rest_(text) {}
  // False where there is no further word.
  bool next(std::string_view& word);
  // The next word as a whole number. Throws Refusal where there is none.
  Weight whole();

 private:
  std::string_view rest_;
};

// A point in counts of 10^-9.
using Point = std::array<Weight, 3>;

// The points of NODE_COORD_SECTION; z is 0 where the distances don't look at it.
std::vector<Point> points_of(const Canonical& file);
// The weights of EDGE_WEIGHT_SECTION in a FULL_MATRIX. The diagonal is 0.
Matrix full_matrix(const Canonical& file);
bool is_symmetric(const Matrix& weights);
// The pairs of FIXED_EDGES_SECTION as they are listed.
std::vector<Pair> fixed_pairs(const Canonical& file);
// The nodes of TOUR_SECTION.
Tour tour_of(const Canonical& file);
// A decimal as a count of 10^-9.
Weight count_of(std::string_view word);
}  // namespace certify
