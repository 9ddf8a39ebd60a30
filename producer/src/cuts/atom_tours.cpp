#include "cuts/atom_tours.h"

#include <algorithm>
#include <bit>
#include <limits>

#include "cuts/quotient_simplex.h"

namespace certify {
namespace {
constexpr float kTiny = 1e-4F;
constexpr std::size_t kLanes = 16;
constexpr float kFar = 1e9F;

// The tour that ends in a point, from the cells of fill_ways(). The last point is where it began.
AtomTour traced(const std::vector<float>& cells, const std::vector<float>& rows, int points, int end) {
  AtomTour tour(points + 1, points);
  unsigned left = (1U << points) - 1;
  for (int place = points - 1; place >= 0; place--) {
    tour[place] = end;
    left &= ~(1U << end);
    float least = 2 * kFar;
    int next = end;
    for (unsigned rest = left; rest != 0; rest &= rest - 1) {
      const int i = std::countr_zero(rest);
      const float length = cells[left * kLanes + i] + rows[static_cast<std::size_t>(i) * kLanes + end];
      if (length >= least) continue;
      least = length;
      next = i;
    }
    end = next;
  }
  return tour;
}

bool is_mirrored(const AtomTour& a, const AtomTour& b) {
  return std::equal(a.begin(), a.end() - 1, b.rbegin() + 1);
}
}  // namespace

AtomTours::AtomTours(int atoms, const std::vector<std::pair<std::uint32_t, double>>& multipliers)
    : atoms_(atoms), distance_(atoms, std::vector<float>(atoms, 0)) {
  for (const auto& [set, value] : multipliers) {
    for (int a = 0; a < atoms; a++) {
      for (int b = 0; b < atoms; b++) {
        if (((set >> a ^ set >> b) & 1) != 0) distance_[a][b] += static_cast<float>(value);
      }
    }
  }
}

float AtomTours::length_of(const AtomTour& tour) const {
  float sum = distance_[tour.back()][tour.front()];
  for (std::size_t k = 1; k < tour.size(); k++) sum += distance_[tour[k - 1]][tour[k]];
  return sum;
}

// Turns a part round where that makes the tour shorter.
bool AtomTours::turn_part(AtomTour& tour) const {
  for (int i = 0; i < atoms_ - 1; i++) {
    const int a = tour[i];
    const int b = tour[i + 1];
    for (int j = i + 2; j < atoms_; j++) {
      const int c = tour[j];
      const int d = tour[j + 1 == atoms_ ? 0 : j + 1];
      if (d == a || distance_[a][c] + distance_[b][d] >= distance_[a][b] + distance_[c][d] - kTiny) continue;
      std::reverse(tour.begin() + i + 1, tour.begin() + j + 1);
      return true;
    }
  }
  return false;
}

// Moves an atom between two others where that makes the tour shorter.
bool AtomTours::move_atom(AtomTour& tour) const {
  for (int i = 0; i < atoms_; i++) {
    const int before = tour[i == 0 ? atoms_ - 1 : i - 1];
    const int v = tour[i];
    const int after = tour[i + 1 == atoms_ ? 0 : i + 1];
    const float gain = distance_[before][v] + distance_[v][after] - distance_[before][after];
    if (gain < kTiny) continue;
    for (int j = 0; j < atoms_; j++) {
      const int a = tour[j];
      const int b = tour[j + 1 == atoms_ ? 0 : j + 1];
      if (a == v || b == v || distance_[a][v] + distance_[v][b] - distance_[a][b] >= gain - kTiny) continue;
      tour.erase(tour.begin() + i);
      tour.insert(std::find(tour.begin(), tour.end(), a) + 1, v);
      return true;
    }
  }
  return false;
}

std::vector<AtomTour> AtomTours::by_local_search(const std::vector<AtomTour>& from, float below,
                                                 std::size_t most) const {
  std::vector<std::pair<float, AtomTour>> found;
  for (AtomTour tour : from) {
    while (turn_part(tour) || move_atom(tour)) continue;
    const float length = length_of(tour);
    const bool known = std::any_of(found.begin(), found.end(),
                                   [&](const auto& other) { return std::abs(other.first - length) < 1e-6F; });
    if (length <= below && !known) found.emplace_back(length, tour);
  }
  std::stable_sort(found.begin(), found.end(),
                   [](const auto& a, const auto& b) { return a.first < b.first; });
  std::vector<AtomTour> tours;
  for (std::size_t k = 0; k < std::min(found.size(), most); k++) tours.push_back(found[k].second);
  return tours;
}

// For each atom the number of the merged one, where atoms at the distance 0 are one; and the first of each.
std::vector<int> AtomTours::merged(std::vector<int>& first_of) const {
  std::vector<int> number;
  for (int a = 0; a < atoms_; a++) {
    const auto same =
        std::find_if(first_of.begin(), first_of.end(), [&](int b) { return distance_[a][b] == 0; });
    number.push_back(static_cast<int>(same - first_of.begin()));
    if (same == first_of.end()) first_of.push_back(a);
  }
  return number;
}

std::vector<AtomTour> AtomTours::shortest(float below, std::size_t most) const {
  std::vector<int> first_of;
  const std::vector<int> number = merged(first_of);
  const int points = static_cast<int>(first_of.size()) - 1;
  if (points < 2) return {};
  std::vector<float> rows(kLanes * kLanes, kFar);
  for (int i = 0; i <= points; i++) {
    for (int j = 0; j < points; j++)
      rows[static_cast<std::size_t>(i) * kLanes + j] = distance_[first_of[i]][first_of[j]];
  }
  static thread_local std::vector<float> cells;
  if (cells.size() < kLanes << points) cells.resize(kLanes << points, kFar);
  fill_ways(cells, rows, points);
  std::vector<std::pair<float, int>> ends;
  ends.reserve(points);
  const std::size_t all = (std::size_t{1} << points) - 1;
  for (int j = 0; j < points; j++) {
    ends.emplace_back(cells[all * kLanes + j] + rows[static_cast<std::size_t>(points) * kLanes + j], j);
  }
  std::sort(ends.begin(), ends.end());
  std::vector<AtomTour> found;
  for (const auto& [length, end] : ends) {
    if (length >= below || found.size() == most) break;
    AtomTour tour = traced(cells, rows, points, end);
    if (std::none_of(found.begin(), found.end(),
                     [&](const AtomTour& other) { return is_mirrored(other, tour); })) {
      found.push_back(std::move(tour));
    }
  }
  for (AtomTour& tour : found) {
    AtomTour whole;
    for (const int point : tour) {
      for (int a = 0; a < atoms_; a++) {
        if (number[a] == point) whole.push_back(a);
      }
    }
    tour = std::move(whole);
  }
  return found;
}
}  // namespace certify
