// The tree of a search, whatever its cases are: which of them are open, and in which order they are written.
#pragma once
#include <algorithm>
#include <array>
#include <cmath>
#include <iterator>
#include <memory>
#include <optional>
#include <set>
#include <utility>
#include <vector>

#include "running/clock.h"
#include "spanning/value.h"

namespace certify {
// A branch is on a What, and leaves a Start to its cases. A case has Numbers.
template <typename What, typename Numbers, typename Start>
class CaseTree {
 public:
  struct Origin {
    int parent;
    bool first;  // of the two cases of the branch
  };
  struct Branch {
    What what;
    std::array<int, 2> cases;  // below
  };
  // A case's place in the tree, and the best numbers for it.
  struct Place {
    std::optional<Origin> origin{};        // nothing at the root
    std::shared_ptr<const Start> start{};  // of the branch above
    Numbers numbers{};
    Value value = kNoValue;
    bool done = false;  // its numbers reach the target
    std::optional<Branch> branch{};
  };
  // The value of an open place, and less than none of its number: of the same value the newest is first.
  using Open = std::pair<Value, int>;

  Place& operator[](int place) { return places_[place]; }
  const Place& operator[](int place) const { return places_[place]; }
  std::size_t branches() const { return branches_; }
  const std::set<Open>& open() const { return open_; }

  // Adds the next place of a tree that is taken from the root on, a branch before its cases.
  int add_next() {
    const int place = static_cast<int>(places_.size());
    Place& here = places_.emplace_back();
    if (expected_.empty()) return place;
    here.origin = expected_.back();
    expected_.pop_back();
    places_[here.origin->parent].branch->cases[here.origin->first ? 0 : 1] = place;
    return place;
  }
  // The two places that are added next are the cases of a branch.
  void expect_cases(int place, What what) {
    places_[place].branch = Branch{std::move(what), {-1, -1}};
    branches_++;
    for (const bool first : {false, true}) expected_.push_back({place, first});
  }
  // Branches on a case, whose numbers hold for the cases below too.
  void branch(int place, What what, const std::shared_ptr<const Start>& start) {
    branches_++;
    const int next = static_cast<int>(places_.size());
    places_[place].branch = Branch{std::move(what), {next + 1, next}};
    for (const bool first : {false, true}) {
      Place below;
      below.origin = Origin{place, first};
      below.start = start;
      below.numbers = places_[place].numbers;
      below.value = places_[place].value;
      places_.push_back(std::move(below));
      reopen(static_cast<int>(places_.size()) - 1);
    }
    places_[place].numbers = {};
  }
  // The case is open.
  void reopen(int place) { open_.emplace(places_[place].value, -place); }
  // The case stays without a branch.
  void leave(int place) { left_ = std::min(left_, places_[place].value); }

  // Each takes an open case, which isn't open any more: the one with the least value, or the newest.
  int take_least() { return take(open_.begin()); }
  int take_newest() {
    return take(std::min_element(open_.begin(), open_.end(),
                                 [](const Open& a, const Open& b) { return a.second < b.second; }));
  }
  // One that reaches a value, if there is any.
  std::optional<int> take_reaching(Value value) {
    if (open_.empty() || open_.rbegin()->first < value) return std::nullopt;
    return take(std::prev(open_.end()));
  }

  // The least value of the cases that are open, left or in a window; more than all where there are none.
  template <typename Window>
  Value least(const Window& window) const {
    Value least = open_.empty() ? left_ : std::min(left_, open_.begin()->first);
    for (const auto& slot : window.running()) {
      if (slot->job.place >= 0) least = std::min(least, places_[slot->job.place].value);
    }
    return least;
  }
  // How many cases are open or in a window.
  template <typename Window>
  std::size_t unfinished(const Window& window) const {
    return open_.size() +
           static_cast<std::size_t>(std::count_if(window.running().begin(), window.running().end(),
                                                  [](const auto& slot) { return slot->job.place >= 0; }));
  }
  // Whether no case is left to begin, or as many are open as a split asks for, if it isn't 0. The last job of
  // the window has no case yet.
  template <typename Window>
  bool ends(const Window& window, std::size_t split) const {
    if (open_.empty() && unfinished(window) == 0) return true;
    return split > 0 && open_.size() + window.running().size() - 1 >= split;
  }

  // add(what, first) for each branch above, the nearest one first.
  template <typename Add>
  void list_above(int place, const Add& add) const {
    for (auto origin = places_[place].origin; origin; origin = places_[origin->parent].origin)
      add(places_[origin->parent].branch->what, origin->first);
  }
  // The part of the tree that a case is, where both cases of a branch are one half.
  double part_of(int place) const {
    int depth = 0;
    list_above(place, [&](const What&, bool) { depth++; });
    return std::ldexp(1.0, -depth);
  }
  // add_branch(what) and add_leaf(place) from the root on, a branch before its cases.
  template <typename AddBranch, typename AddLeaf>
  void list(const AddBranch& add_branch, const AddLeaf& add_leaf) const {
    std::vector<int> rest{0};
    while (!rest.empty()) {
      const int place = rest.back();
      const std::optional<Branch>& branch = places_[place].branch;
      rest.pop_back();
      if (!branch) {
        add_leaf(place);
        continue;
      }
      add_branch(branch->what);
      rest.insert(rest.end(), branch->cases.rbegin(), branch->cases.rend());
    }
  }
  std::vector<int> leaves() const {
    std::vector<int> leaves;
    for (std::size_t place = 0; place < places_.size(); place++) {
      if (!places_[place].branch) leaves.push_back(static_cast<int>(place));
    }
    return leaves;
  }

  // Where all leaves are done, they get numbers_of(leaf, grid), by a large divisor of the scale of which none
  // of these is nothing. Numbers that are multiples of it are short in a file. That divisor.
  template <typename NumbersOf>
  std::optional<Weight> coarsen(Weight scale, const Clock& clock, const NumbersOf& numbers_of) {
    std::vector<int> leaves = this->leaves();
    if (!std::all_of(leaves.begin(), leaves.end(), [&](int leaf) { return places_[leaf].done; })) return {};
    Weight tried = 0;
    for (Weight parts = 1; parts < scale && !clock.over(); parts++) {
      if (scale % parts != 0 || parts < 2 * tried) continue;
      const Weight grid = scale / parts;
      if (give(leaves, clock, [&](int leaf) { return numbers_of(leaf, grid); })) return grid;
      tried = parts;
    }
    return {};
  }

 private:
  int take(typename std::set<Open>::iterator open) {
    const int place = -open->second;
    open_.erase(open);
    return place;
  }
  // Gives all leaves the numbers by numbers_of(leaf). False where the time is over, or one has none, which is
  // then the first leaf.
  template <typename NumbersOf>
  bool give(std::vector<int>& leaves, const Clock& clock, const NumbersOf& numbers_of) {
    std::vector<Numbers> all;
    all.reserve(leaves.size());
    for (auto leaf = leaves.begin(); leaf != leaves.end(); ++leaf) {
      if (clock.over()) return false;
      std::optional<Numbers> numbers = numbers_of(*leaf);
      if (!numbers) {
        std::rotate(leaves.begin(), leaf, leaf + 1);
        return false;
      }
      all.push_back(std::move(*numbers));
    }
    for (std::size_t k = 0; k < leaves.size(); k++) places_[leaves[k]].numbers = std::move(all[k]);
    return true;
  }

  std::vector<Place> places_;
  std::vector<Origin> expected_;
  std::set<Open> open_;
  Value left_ = -kNoValue;  // the least value of the cases that are left
  std::size_t branches_ = 0;
};
}  // namespace certify
