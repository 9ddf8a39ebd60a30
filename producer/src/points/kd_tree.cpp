// tests/units/potentials.cpp compares its searches with a look at all pairs. If ties go otherwise, a seed
// gives other files, and figures of pages change.
#include "points/kd_tree.h"

#include <limits>
#include <numeric>
#include <utility>

namespace potentials {
namespace {
constexpr int kLeafSize = 6;
constexpr double kInfinite = std::numeric_limits<double>::infinity();
}  // namespace

double Searches::keep(std::vector<Near>& found, int count, const Near& near) {
  if (static_cast<int>(found.size()) == count) found.pop_back();
  found.insert(std::upper_bound(found.begin(), found.end(), near), near);
  return static_cast<int>(found.size()) == count ? found.back().weight : kInfinite;
}

struct KdTree::Query {
  int node, count, quadrant;  // quadrant -1 for all
  double limit;
  std::vector<Near>& found;
};

KdTree::KdTree(Points& points) : points_(points), order_(points.size()), numbers_(points.size()) {
  std::iota(order_.begin(), order_.end(), 0);
  boxes_.reserve(points.size());
  build(0, points.size());
  std::vector<double> sorted(points.size());
  for (std::vector<double>* axis : {&points.x, &points.y, &points.z}) {
    for (std::size_t i = 0; i < sorted.size(); i++) sorted[i] = (*axis)[order_[i]];
    axis->swap(sorted);
  }
}

// The axis along which the nodes of a box are most spread out. Fills the bounds of the box.
int KdTree::widest_axis(Box& box) const {
  const std::vector<double>* axes[] = {&points_.x, &points_.y, &points_.z};
  int widest = 0;
  for (int axis = 0; axis < 3; axis++) {
    double low = kInfinite;
    double high = -kInfinite;
    for (int k = box.first; k < box.last; k++) {
      low = std::min(low, (*axes[axis])[order_[k]]);
      high = std::max(high, (*axes[axis])[order_[k]]);
    }
    box.low[axis] = low;
    box.high[axis] = high;
    if (high - low > box.high[widest] - box.low[widest]) widest = axis;
  }
  return widest;
}

int KdTree::build(int first, int last) {
  const int box = static_cast<int>(boxes_.size());
  boxes_.push_back({{}, {}, 0, first, last, -1, -1, -1});
  const int widest = widest_axis(boxes_[box]);
  if (last - first <= kLeafSize) return box;
  const int middle = (first + last) / 2;
  const std::vector<double>& values = widest == 0 ? points_.x : widest == 1 ? points_.y : points_.z;
  std::nth_element(order_.begin() + first, order_.begin() + middle, order_.begin() + last,
                   [&](int a, int b) { return values[a] != values[b] ? values[a] < values[b] : a < b; });
  const int left = build(first, middle);
  const int right = build(middle, last);
  boxes_[box].left = left;
  boxes_[box].right = right;
  return box;
}

// Boxes come before the boxes in them.
void KdTree::set_numbers(const std::vector<double>& numbers) {
  numbers_ = numbers;
  for (int k = static_cast<int>(boxes_.size()) - 1; k >= 0; k--) {
    Box& box = boxes_[k];
    box.number = box.left < 0 ? *std::min_element(numbers_.begin() + box.first, numbers_.begin() + box.last)
                              : std::min(boxes_[box.left].number, boxes_[box.right].number);
  }
}

void KdTree::set_labels(const std::vector<int>& labels) {
  labels_ = labels;
  for (int k = static_cast<int>(boxes_.size()) - 1; k >= 0; k--) {
    Box& box = boxes_[k];
    if (box.left >= 0) {
      const int label = boxes_[box.left].label;
      box.label = label == boxes_[box.right].label ? label : -1;
    } else {
      const auto begin = labels_.begin() + box.first;
      const bool one =
          std::all_of(begin, labels_.begin() + box.last, [&](int label) { return label == *begin; });
      box.label = one ? *begin : -1;
    }
  }
}

// It leaves out extra(j), which is at least 0. Where points are nearer than 0.5 it is below b.number, and so
// is no use among equal points: searches look at that number too.
double KdTree::least(int box, int i) const {
  const Box& b = boxes_[box];
  const auto apart = [](double at, double low, double high) { return std::max({low - at, at - high, 0.0}); };
  const double dz = points_.axes == 3 ? apart(points_.z[i], b.low[2], b.high[2]) : 0;
  const double dx = apart(points_.x[i], b.low[0], b.high[0]);
  const double dy = apart(points_.y[i], b.low[1], b.high[1]);
  return points_.raw(dx, dy, dz) - 0.5 + b.number;
}

bool KdTree::is_in_quadrant(int i, int j, int quadrant) const {
  const double apart[] = {points_.x[j] - points_.x[i], points_.y[j] - points_.y[i],
                          points_.z[j] - points_.z[i]};
  for (int axis = 0; axis < std::min(points_.axes, 3); axis++) {
    if ((quadrant >> axis & 1) != 0 ? apart[axis] > 0 : apart[axis] < 0) return false;
  }
  return true;
}

bool KdTree::misses_quadrant(int i, const Box& box, int quadrant) const {
  const double at[] = {points_.x[i], points_.y[i], points_.z[i]};
  for (int axis = 0; axis < std::min(points_.axes, 3); axis++) {
    if ((quadrant >> axis & 1) != 0 ? box.low[axis] > at[axis] : box.high[axis] < at[axis]) return true;
  }
  return false;
}

void KdTree::visit(Query& query, int box) const {
  const Box& b = boxes_[box];
  if (b.left < 0) {
    for (int j = b.first; j < b.last; j++) {
      if (j == query.node || (query.quadrant >= 0 && !is_in_quadrant(query.node, j, query.quadrant)))
        continue;
      const double weight = points_.cost(query.node, j) + numbers_[j] + extra(j);
      if (weight < query.limit) query.limit = keep(query.found, query.count, {weight, j});
    }
    return;
  }
  double near = least(b.left, query.node);
  double far = least(b.right, query.node);
  int first = b.left;
  int second = b.right;
  if (far < near) {
    std::swap(near, far);
    std::swap(first, second);
  }
  const auto enter = [&](double bound, int next) {
    if (bound >= query.limit || boxes_[next].number >= query.limit) return;
    if (query.quadrant < 0 || !misses_quadrant(query.node, boxes_[next], query.quadrant)) visit(query, next);
  };
  enter(near, first);
  enter(far, second);
}

void KdTree::lightest(int i, int count, std::vector<Near>& found) const {
  found.clear();
  Query query{i, count, -1, kInfinite, found};
  visit(query, 0);
}

void KdTree::lightest_around(int i, int count, std::vector<Near>& found) const {
  found.clear();
  if (count == 0) return;
  std::vector<Near> some;
  for (int quadrant = 0; quadrant < 1 << points_.axes; quadrant++) {
    some.clear();
    Query query{i, count, quadrant, kInfinite, some};
    visit(query, 0);
    found.insert(found.end(), some.begin(), some.end());
  }
}

void KdTree::visit_outside(int i, int box, Near& best) const {
  const Box& b = boxes_[box];
  if (b.left < 0) {
    for (int j = b.first; j < b.last; j++) {
      if (labels_[j] == labels_[i]) continue;
      const double weight = points_.cost(i, j) + numbers_[j] + extra(j);
      if (weight < best.weight) best = {weight, j};
    }
    return;
  }
  double near = boxes_[b.left].label == labels_[i] ? kInfinite : least(b.left, i);
  double far = boxes_[b.right].label == labels_[i] ? kInfinite : least(b.right, i);
  int first = b.left;
  int second = b.right;
  if (far < near) {
    std::swap(near, far);
    std::swap(first, second);
  }
  if (near < best.weight && boxes_[first].number < best.weight) visit_outside(i, first, best);
  if (far < best.weight && boxes_[second].number < best.weight) visit_outside(i, second, best);
}

Near KdTree::lightest_outside(int i, double limit) const {
  Near best{limit, -1};
  visit_outside(i, 0, best);
  return best;
}
}  // namespace potentials
