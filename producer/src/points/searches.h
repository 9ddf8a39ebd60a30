// Searches among all pairs of nodes for the least cost(i, j) + p(j), where each node j has a number p(j).
#pragma once
#include <vector>

namespace potentials {
struct Near {
  double weight;
  int node;
  bool operator<(const Near& other) const { return weight < other.weight; }
};

class Searches {
 public:
  virtual ~Searches() = default;
  // The numbers p from here on.
  virtual void set_numbers(const std::vector<double>& numbers) = 0;
  // The components of the nodes from here on.
  virtual void set_labels(const std::vector<int>& labels) = 0;
  // What a node j weighs more from here on, from 0 on, or nothing. It has to outlive the searches.
  void set_extra(const std::vector<double>* extra) { extra_ = extra; }
  // The (at most) `count` nodes other than i with the least cost(i, j) + p(j), lightest first.
  virtual void lightest(int i, int count, std::vector<Near>& found) const = 0;
  // The same for each quadrant around i alone; of a matrix none. The order is by quadrants.
  virtual void lightest_around(int i, int count, std::vector<Near>& found) const = 0;
  // The lightest node of another component that weighs less than the limit; node -1 where there is none.
  virtual Near lightest_outside(int i, double limit) const = 0;

 protected:
  // Keeps the lightest ones, sorted. Returns what another one has to be lighter than.
  static double keep(std::vector<Near>& found, int count, const Near& near);
  double extra(int j) const { return extra_ == nullptr ? 0 : (*extra_)[j]; }

 private:
  const std::vector<double>* extra_ = nullptr;
};
}  // namespace potentials
