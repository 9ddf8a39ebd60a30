#include "tours/block_tour.h"

#include <algorithm>
#include <cmath>
#include <utility>

namespace potentials {
using certify::Tour;

namespace {
constexpr double kNominal = 0.7;  // of the square root of n: the nodes of a block
constexpr int kLeastNominal = 8;
constexpr int kSpare = 4;  // as many times the nodes that a block begins with have a place in it
constexpr int kAttempts = 8;
}  // namespace

BlockTour::BlockTour(const Tour& order) : count_(static_cast<int>(order.size())) {
  const int nominal =
      std::max(kLeastNominal, static_cast<int>(kNominal * std::sqrt(static_cast<double>(count_))));
  const int number = std::max(1, count_ / nominal);
  capacity_ = kSpare * (count_ / number + 1);
  items_.resize(static_cast<std::size_t>(capacity_) * number);
  place_.resize(count_);
  block_of_.resize(count_);
  ranked_.resize(number);
  blocks_.resize(number);
  lay(order);
}

// Blocks of equal sizes.
void BlockTour::lay(const Tour& order) {
  const auto number = static_cast<int>(ranked_.size());
  for (int b = 0; b < number; b++) {
    const auto low = static_cast<int>(static_cast<long>(count_) * b / number);
    const auto high = static_cast<int>(static_cast<long>(count_) * (b + 1) / number);
    blocks_[b] = {b * capacity_, high - low, b, false};
    ranked_[b] = b;
    for (int k = low; k < high; k++) {
      items_[b * capacity_ + k - low] = order[k];
      place_[order[k]] = k - low;
      block_of_[order[k]] = b;
    }
  }
}

Tour BlockTour::order() const {
  Tour result;
  result.reserve(count_);
  for (int k = 0, i = first(ranked_[0]); k < count_; k++, i = after(i)) result.push_back(i);
  return result;
}

bool BlockTour::between(int a, int b, int c) const {
  const long at = position(a);
  const long bt = position(b);
  const long ct = position(c);
  if (backward_) return ct <= bt ? (bt <= at || at < ct) : (bt <= at && at < ct);
  return at <= bt ? (bt <= ct || ct < at) : (bt <= ct && ct < at);
}

// Within one block.
void BlockTour::reverse_inside(int a, int b) {
  const Block& block = blocks_[block_of_[a]];
  int low = std::min(place_[a], place_[b]);
  int high = std::max(place_[a], place_[b]);
  int* items = items_.data() + block.start;
  for (; low < high; low++, high--) {
    std::swap(items[low], items[high]);
    place_[items[low]] = low;
    place_[items[high]] = high;
  }
}

// Takes the first or last nodes out of a block, along its direction, into moved_.
void BlockTour::take_out(int from, int count, bool from_end) {
  Block& source = blocks_[from];
  int* items = items_.data() + source.start;
  moved_.clear();
  for (int k = 0; k < count; k++) {
    const int along = from_end ? source.size - count + k : k;
    moved_.push_back(items[source.reversed ? source.size - 1 - along : along]);
  }
  source.size -= count;
  if (from_end != source.reversed) return;
  std::copy(items + count, items + source.size + count, items);
  for (int k = 0; k < source.size; k++) place_[items[k]] = k;
}

// Puts moved_ to the front or the end of a block, along its direction.
void BlockTour::put_in(int to, bool at_front) {
  Block& target = blocks_[to];
  const auto count = static_cast<int>(moved_.size());
  int* items = items_.data() + target.start;
  if (target.reversed) std::reverse(moved_.begin(), moved_.end());
  int changed = target.size;  // places from this one on are new
  if (at_front != target.reversed) {
    std::copy_backward(items, items + target.size, items + target.size + count);
    std::copy(moved_.begin(), moved_.end(), items);
    changed = 0;
  } else {
    std::copy(moved_.begin(), moved_.end(), items + target.size);
  }
  target.size += count;
  for (int k = changed; k < target.size; k++) place_[items[k]] = k;
  for (const int node : moved_) block_of_[node] = to;
}

// Moves nodes to the block before, or those at the end to the block behind. False where there is no space.
bool BlockTour::give(int from, int to, int count, bool from_end) {
  if (count == 0) return true;
  if (from == to || blocks_[to].size + count > capacity_ || count >= blocks_[from].size) return false;
  take_out(from, count, from_end);
  put_in(to, from_end);
  return true;
}

// Makes a node the first of its block.
bool BlockTour::split_before(int i) {
  const int b = block_of_[i];
  const int head = along(i);
  const int tail = blocks_[b].size - head;
  if (head == 0) return true;
  if (head <= tail) return give(b, ranked_[down(blocks_[b].rank)], head, false);
  return give(b, ranked_[up(blocks_[b].rank)], tail, true);
}

void BlockTour::reverse(int a, int b) {
  if (a == b) return;
  if (backward_) std::swap(a, b);
  for (int attempt = 0; attempt < kAttempts; attempt++) {
    if (reverse_shortly(a, b)) return;
    const int beyond = after(b);
    // the second split may move the nodes of the first one, where both are in one block
    const bool split = split_before(a) && split_before(beyond);
    if (split && along(a) == 0 && along(beyond) == 0 && block_of_[a] != block_of_[beyond]) {
      return reverse_blocks(blocks_[block_of_[a]].rank, blocks_[block_of_[b]].rank);
    }
    if (!split || attempt > kAttempts / 2) lay(order());
  }
  reverse_plainly(a, b);
}

// Where the path, or all else, is within one block, or the path is the whole tour.
bool BlockTour::reverse_shortly(int a, int b) {
  if (block_of_[a] == block_of_[b] && along(a) <= along(b)) {
    reverse_inside(a, b);
    return true;
  }
  const int outer_a = before(a);
  const int outer_b = after(b);
  const bool whole = outer_b == a;
  if (!whole && (block_of_[outer_a] != block_of_[outer_b] || along(outer_b) > along(outer_a))) return false;
  if (!whole) reverse_inside(outer_b, outer_a);
  backward_ = !backward_;
  return true;
}

// Reverses the blocks from one rank to another, or the others where they are fewer.
void BlockTour::reverse_blocks(int low, int high) {
  const auto number = static_cast<int>(ranked_.size());
  int length = high - low + 1;
  if (length <= 0) length += number;
  if (2 * length > number) {
    const int other = low;
    low = up(high);
    high = down(other);
    length = number - length;
    backward_ = !backward_;
  }
  for (int k = 0; k < length / 2; k++, low = up(low), high = down(high)) {
    std::swap(ranked_[low], ranked_[high]);
    for (const int rank : {low, high}) {
      Block& block = blocks_[ranked_[rank]];
      block.rank = rank;
      block.reversed = !block.reversed;
    }
  }
  if (length % 2 == 1) blocks_[ranked_[low]].reversed = !blocks_[ranked_[low]].reversed;
}

// Never expected: both splits fail again and again.
void BlockTour::reverse_plainly(int a, int b) {
  Tour list = order();
  std::rotate(list.begin(), std::find(list.begin(), list.end(), a), list.end());
  std::reverse(list.begin(), std::find(list.begin(), list.end(), b) + 1);
  lay(list);
}
}  // namespace potentials
