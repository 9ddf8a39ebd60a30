// A cyclic tour as blocks of about sqrt(n) nodes, each with a bit for its direction: next, prev and between
// in constant time, a reversal in O(sqrt(n)).
//
// Source: M. L. Fredman, D. S. Johnson, L. A. McGeoch, G. Ostheimer, Data structures for traveling salesmen
// (1995), with contiguous blocks in place of linked ones.
#pragma once
#include <cstddef>
#include <vector>

#include "graphs/tour.h"

namespace potentials {
class BlockTour {
 public:
  explicit BlockTour(const certify::Tour& order);

  int next(int i) const { return backward_ ? before(i) : after(i); }
  int prev(int i) const { return backward_ ? after(i) : before(i); }
  // Whether b is met no later than c on the way from a.
  bool between(int a, int b, int c) const;
  // Reverses the path from a to b. Its neighbours stay in place.
  void reverse(int a, int b);
  // Looks at the same tour in the other direction.
  void turn() { backward_ = !backward_; }
  certify::Tour order() const;

 private:
  struct Block {
    int start, size, rank;
    bool reversed;
  };

  int after(int i) const {
    const Block& block = blocks_[block_of_[i]];
    const int at = place_[i];
    if (!block.reversed ? at + 1 < block.size : at > 0) {
      return items_[block.start + (block.reversed ? at - 1 : at + 1)];
    }
    return first(ranked_[up(block.rank)]);
  }
  int before(int i) const {
    const Block& block = blocks_[block_of_[i]];
    const int at = place_[i];
    if (block.reversed ? at + 1 < block.size : at > 0) {
      return items_[block.start + (block.reversed ? at + 1 : at - 1)];
    }
    return last(ranked_[down(block.rank)]);
  }
  int first(int b) const {
    return items_[blocks_[b].start + (blocks_[b].reversed ? blocks_[b].size - 1 : 0)];
  }
  int last(int b) const { return items_[blocks_[b].start + (blocks_[b].reversed ? 0 : blocks_[b].size - 1)]; }
  int up(int rank) const { return rank + 1 == static_cast<int>(ranked_.size()) ? 0 : rank + 1; }
  int down(int rank) const { return rank == 0 ? static_cast<int>(ranked_.size()) - 1 : rank - 1; }
  // The place of a node along its block's direction.
  int along(int i) const {
    const Block& block = blocks_[block_of_[i]];
    return block.reversed ? block.size - 1 - place_[i] : place_[i];
  }
  long position(int i) const { return static_cast<long>(blocks_[block_of_[i]].rank) * capacity_ + along(i); }

  void lay(const certify::Tour& order);
  bool reverse_shortly(int a, int b);
  void reverse_inside(int a, int b);
  void reverse_blocks(int low, int high);
  void reverse_plainly(int a, int b);
  bool split_before(int i);
  bool give(int from, int to, int count, bool from_end);
  void take_out(int from, int count, bool from_end);
  void put_in(int to, bool at_front);

  int capacity_ = 0, count_ = 0;
  std::vector<int> items_, place_, block_of_, ranked_, moved_;
  std::vector<Block> blocks_;
  bool backward_ = false;
};
}  // namespace potentials
