// A k-d tree over points, whose boxes know the least number of their nodes.
// Source: J. L. Bentley, K-d trees for semidynamic point sets (1990).
#pragma once
#include "points/points.h"
#include "points/searches.h"

namespace potentials {
class KdTree : public Searches {
 public:
  // The points are sorted into the order of the leaves. They have to outlive the tree.
  explicit KdTree(Points& points);
  // Where each point was before.
  const std::vector<int>& order() const { return order_; }

  void set_numbers(const std::vector<double>& numbers) override;
  void set_labels(const std::vector<int>& labels) override;
  void lightest(int i, int count, std::vector<Near>& found) const override;
  void lightest_around(int i, int count, std::vector<Near>& found) const override;
  Near lightest_outside(int i, double limit) const override;

 private:
  struct Box {
    double low[3], high[3];
    double number;    // the least one of its nodes
    int first, last;  // its nodes
    int left, right;  // -1 for a leaf
    int label;        // the one component of all its nodes, or -1
  };
  struct Query;

  int build(int first, int last);
  int widest_axis(Box& box) const;
  double least(int box, int i) const;  // at most cost(i, j) + p(j) of each j in the box
  bool is_in_quadrant(int i, int j, int quadrant) const;
  bool misses_quadrant(int i, const Box& box, int quadrant) const;
  void visit(Query& query, int box) const;
  void visit_outside(int i, int box, Near& best) const;

  Points& points_;
  std::vector<int> order_, labels_;
  std::vector<double> numbers_;
  std::vector<Box> boxes_;
};
}  // namespace potentials
