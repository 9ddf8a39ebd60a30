#include <algorithm>
#include <cmath>
#include <numeric>
#include <utility>

#include "tree/joining.h"
#include "tree/search.h"

namespace certify {
namespace {
constexpr double kMostPotential = 1e15;  // that a file may have

// Potentials less their mean, as whole numbers at a scale.
Numbers numbers_at(Weight scale, const std::vector<double>& potentials) {
  Numbers numbers;
  const double sum = std::accumulate(potentials.begin(), potentials.end(), 0.0);
  const double mean = potentials.empty() ? 0 : sum / static_cast<double>(potentials.size());
  for (const double potential : potentials) {
    const double scaled = (potential - mean) * static_cast<double>(scale);
    numbers.potentials.push_back(std::llround(std::clamp(scaled, -kMostPotential, kMostPotential)));
  }
  return numbers;
}
}  // namespace

// The families of a certificate are the first cuts. Their numbers in the pool.
std::vector<int> Search::take_families(const Certificate& tree) {
  std::vector<int> cuts;
  cuts.reserve(tree.families.size());
  for (const std::vector<NodeSet>& family : tree.families)
    cuts.push_back(add_family(pool_, family, problem_.instance.nodes()));
  root_gap_ = note_of(tree, "root-gap", 0);
  large_tree_ = note_of(tree, "large-tree", 1) > 0;
  return cuts;
}

// The numbers of a leaf of a certificate.
Numbers Search::numbers_of(const Numbers& numbers, const std::vector<int>& cuts) const {
  const Weight factor = problem_.scale / problem_.start.tree->scale;
  Numbers own;
  own.potentials.reserve(numbers.potentials.size());
  for (const Weight potential : numbers.potentials) own.potentials.push_back(potential * factor);
  for (const auto& [family, multiplier] : numbers.multipliers)
    own.multipliers[cuts[family]] += multiplier * factor;
  return own;
}

// Takes the next step: a branch, or a leaf, which is open where its numbers don't reach the target.
void Search::take_step(const TreeStep& step, const std::vector<int>& cuts) {
  const int place = tree_.add_next();
  if (const auto* pair = std::get_if<Pair>(&step)) {
    tree_.expect_cases(place, *pair);
    return;
  }
  tree_[place].numbers = numbers_of(std::get<Numbers>(step), cuts);
  tree_[place].value = bound_->value(tree_[place].numbers, decisions_of(place));
  tree_.reopen(place);
}

void Search::take_tree(const Certificate& tree) {
  const std::vector<int> cuts = take_families(tree);
  for (const TreeStep& step : tree.steps) take_step(step, cuts);
  finish_reached();
  if (root_gap_ == 0 && !tree_.open().empty())
    root_gap_ = static_cast<double>(goal_.target - bound_->bound_of(tree_.open().begin()->first));
}

// The whole problem, or one leaf of a certificate.
Case Search::first_case() {
  Case first{.goal = goal_, .seed = problem_.start.seed, .whole = true};
  if (const std::optional<Certificate>& tree = problem_.start.tree) {
    const int number = problem_.start.leaf.value_or(1);
    const OpenLeaf leaf = leaf_of(*tree, number);
    above_.insert(above_.end(), leaf.decisions.begin(), leaf.decisions.end());
    const std::vector<int> cuts = take_families(*tree);
    const std::size_t leaves = (tree->steps.size() + 1) / 2;
    const double open = note_of(*tree, "open", static_cast<double>(leaves));
    named_.share(cuts, static_cast<std::size_t>(std::max(1.0, open)));
    first.numbers = numbers_of(leaf.numbers, cuts);
    first.rows = cuts_of(first.numbers);
    first.seed += static_cast<std::uint64_t>(number);
    first.whole = leaf.decisions.empty();
    notes_ = {{"tree", identity_of(*tree)}, {"leaf", std::to_string(number)}};
  }
  if (!problem_.start.tree) first.numbers = numbers_at(scale(), problem_.start.potentials);
  first.decisions = above_;
  first.cuts = pool_.part(0, pool_.size());
  first.known = pool_.size();
  if (named_.is_closed()) first.allowed = named_.marks();
  first.large_tree = large_tree_;
  first.root_gap = root_gap_;
  return first;
}

// A leaf of the file, after that of the last numbers. Where differences are past their limit it gets those.
// Whether it reaches the target.
bool Search::add_leaf(const ListedLeaf& leaf, Numbers numbers, Numbers& last) {
  const std::size_t count = differences(numbers, last);
  if (differences_ + count <= plan_.limits.differences) {
    differences_ += count;
    last = std::move(numbers);
  } else if (last.potentials.empty()) {
    last.potentials.assign(numbers.potentials.size(), 0);
  }
  const Value value = bound_->value(last, leaf.decisions);
  least_ = std::min(least_, value);
  steps_.emplace_back(last);
  if (leaf.done && value < aim()) limited_ = true;
  return leaf.done && value >= aim();
}

// Drops the cuts of open leaves that a file can't have, those with the least multipliers. What leaves that
// are done name is in the file.
void Search::drop_surplus() {
  std::vector<int> open = tree_.leaves();
  std::erase_if(open, [&](int place) { return tree_[place].done; });
  std::map<int, Value> sums;
  for (const int place : open) {
    for (const auto& [cut, multiplier] : tree_[place].numbers.multipliers) sums[cut] += multiplier;
  }
  named_.fill(sums);
  for (const int place : open) {
    Tree::Place& here = tree_[place];
    if (here.numbers.potentials.empty() || named_.fit(here.numbers)) continue;
    const int steps = clock_.over() ? 0 : kLeaves.mending_steps;
    here.numbers = made_.restricted(here.numbers, *named_.marks(), decisions_of(place), here.value, steps);
  }
}

void Search::coarsen() {
  grid_ = tree_.coarsen(scale(), clock_, [&](int leaf, Weight grid) {
    return made_.coarse(tree_[leaf].numbers, decisions_of(leaf), goal_.target, grid);
  });
}

void Search::list_steps() {
  std::vector<ListedLeaf> leaves;
  tree_.list([](const Pair&) {},
             [&](int place) {
               leaves.push_back({&tree_[place].numbers, decisions_of(place), tree_[place].done});
             });
  std::vector<Numbers> numbers =
      near_numbers({problem_, pool_, clock_, goal_.target, grid_.value_or(1), plan_.short_file}, leaves);
  leaves_ = 0;
  Numbers last;
  const auto add = [&](int) {
    const int leaf = leaves_++;
    if (!add_leaf(leaves[leaf], std::move(numbers[leaf]), last)) open_leaves_.push_back(leaves_);
  };
  tree_.list([&](const Pair& pair) { steps_.emplace_back(pair); }, add);
}

// Cuts get new numbers, in the order of their first leaf.
Certificate Search::certificate() const {
  Certificate certificate{problem_.instance.nodes(), scale(), notes_};
  std::map<int, int> numbers;
  const auto number = [&](int cut) {
    const auto [place, fresh] = numbers.emplace(cut, certificate.families.size());
    if (fresh) certificate.families.push_back(pool_[cut].sets);
    return place->second;
  };
  for (TreeStep step : steps_) {
    if (auto* leaf = std::get_if<Numbers>(&step)) {
      std::map<int, Weight> multipliers;
      for (const auto& [cut, multiplier] : leaf->multipliers) {
        if (multiplier != 0) multipliers[number(cut)] = multiplier;
      }
      leaf->multipliers = std::move(multipliers);
    }
    certificate.steps.push_back(std::move(step));
  }
  if (open_leaves_.empty()) return certificate;
  certificate.notes["open"] = std::to_string(open_leaves_.size());
  certificate.notes["root-gap"] = std::to_string(root_gap_);
  certificate.notes["large-tree"] = std::to_string(large_tree_ || leaves_ >= kCutting.many_leaves ? 1 : 0);
  if (plan_.split == 0) return certificate;
  for (const auto& [value, place] : tree_.open()) {
    const std::shared_ptr<const WarmStart>& warm = tree_[-place].start;
    if (!warm) continue;
    for (const int cut : warm->basis.cuts) number(cut);
  }
  return certificate;
}
}  // namespace certify
