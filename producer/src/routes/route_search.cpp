#include "routes/route_search.h"

#include <algorithm>
#include <numeric>
#include <utility>

#include "routes/number_changes.h"
#include "tree/joining.h"

namespace certify::routes {
namespace {
// A multiple of the scale of a certificate that is gone on with, so that its numbers are whole.
Weight common_scale(const CvrpInstance& instance, const RouteBegin& begin) {
  const Weight scale = scale_for(instance);
  if (!begin.tree) return scale;
  const Weight common = std::lcm(scale, begin.tree->scale);
  return common <= kRouteLeaves.most_common_scale ? common : begin.tree->scale;
}
}  // namespace

RouteSearch::RouteSearch(const CvrpInstance& instance, const Loads& loads, const RouteBegin& begin,
                         const Clock& clock, Progress& progress, const Plan& plan)
    : SetSearch(instance, loads, begin, clock, progress, plan, common_scale(instance, begin)),
      certificates_(instance) {}

// Takes the next step: a branch, or a leaf, which is open where its numbers don't reach the target.
void RouteSearch::take_step(const Certificate& tree, const TreeStep& step) {
  const int place = tree_.add_next();
  if (const auto* branch = std::get_if<FamilyBranch>(&step)) {
    tree_.expect_cases(place, {certificates_.customers_of(tree, branch->family), branch->t});
    return;
  }
  Tree::Place& here = tree_[place];
  here.numbers = certificates_.numbers_of(tree, std::get<Numbers>(step), problem_.scale / tree.scale);
  here.value = bound_.value(here.numbers, limits_of(place));
  tree_.reopen(place);
}

void RouteSearch::take_tree(const Certificate& tree) {
  for (const TreeStep& step : tree.steps) take_step(tree, step);
  finish_reached();
}

std::string RouteSearch::counts() const {
  return R"({"sets": )" + std::to_string(sets_) + R"(}, "walks": )" + std::to_string(walks_);
}

// The root: the whole problem, or one leaf of a certificate.
void RouteSearch::solve_first() {
  const int root = tree_.add_next();
  if (begin_.tree) {
    const int number = begin_.leaf.value_or(1);
    const OpenLeaf leaf = leaf_of(*begin_.tree, number);
    above_ = certificates_.limits_of(*begin_.tree, leaf);
    tree_[root].numbers =
        certificates_.numbers_of(*begin_.tree, leaf.numbers, problem_.scale / begin_.tree->scale);
    made_.certificate().notes = {{"tree", identity_of(*begin_.tree)}, {"leaf", std::to_string(number)}};
  }
  RouteCase first = case_of(root);
  first.whole = true;
  if (!begin_.tree) first.start = std::make_shared<const RouteStart>(RouteStart{{}, begin_.met, {}});
  const auto note = [&](Weight length, Weight bound, int sets, int walks) {
    sets_ = sets;
    walks_ = walks;
    log_round(length, bound);
  };
  RouteOutcome outcome = own_solver().solve(first, note);
  take(root, outcome);
  look_again(kRouteTree.large_gap);
}

// Sets that a file has to have are named. Where it can't have all, the numbers lose those that aren't named
// yet.
void RouteSearch::name_sets(LeafNumbers& numbers) {
  std::vector<NodeSet> fresh;
  std::size_t nodes = named_nodes_;
  for (const auto& [set, multiplier] : numbers.multipliers) {
    if (named_.contains(set)) continue;
    fresh.push_back(set);
    nodes += set.size();
  }
  if (named_.size() + fresh.size() > plan_.limits.families || nodes > plan_.limits.nodes) {
    limited_ = true;
    for (const NodeSet& set : fresh) numbers.multipliers.erase(set);
    return;
  }
  named_.insert(fresh.begin(), fresh.end());
  named_nodes_ = nodes;
}

// Branches on a case, where a file can have the branch.
void RouteSearch::go_on(int place, const RouteOutcome& outcome) {
  LeafNumbers named;
  if (outcome.branch) named.multipliers[outcome.branch->set] = 1;
  name_sets(named);
  if (!named.multipliers.empty() && tree_.branches() < plan_.limits.branches) {
    tree_.branch(place, *outcome.branch, outcome.start);
  } else {
    tree_.leave(place);
  }
  log("branch", least_bound());
}

// Takes what came of a case.
void RouteSearch::take(int place, RouteOutcome& outcome) {
  sets_ = outcome.sets;
  walks_ = outcome.walks;
  const bool shorter = take_plan(outcome.routes);
  Tree::Place& here = tree_[place];
  const std::size_t before = outcome.numbers.multipliers.size();
  name_sets(outcome.numbers);
  here.numbers = std::move(outcome.numbers);
  here.value = here.numbers.multipliers.size() == before ? outcome.value
                                                         : bound_.value(here.numbers, limits_of(place));
  if (here.value >= aim()) {
    finish(place);
  } else {
    go_on(place, outcome);
  }
  if (shorter) log("tour", least_bound());
}

// Finishes the open cases that reach the target: where a shorter plan was found meanwhile.
void RouteSearch::finish_reached() {
  while (const std::optional<int> place = tree_.take_reaching(aim())) finish(*place);
}

bool RouteSearch::is_full() {
  limited_ = limited_ || tree_.branches() >= plan_.limits.branches;
  return tree_.branches() >= plan_.limits.branches;
}

void RouteSearch::coarsen() {
  const auto numbers_of = [&](int leaf, Weight grid) -> std::optional<LeafNumbers> {
    const Duals duals = duals_of(instance_, tree_[leaf].numbers, problem_.scale);
    LeafNumbers numbers = bound_.rounded(duals, grid);
    if (bound_.value(numbers, limits_of(leaf)) < aim()) return std::nullopt;
    return numbers;
  };
  grid_ = tree_.coarsen(problem_.scale, clock_, numbers_of);
}

// The numbers of a leaf, of which as many are those of the leaf before as still reach the target, and those
// that differ least first. That makes a short file.
LeafNumbers RouteSearch::near_last(const LeafNumbers& own, const std::vector<Limit>& limits) {
  if (!grid_ || last_numbers_.potentials.empty()) return own;
  const std::vector<NumberChange> changes = changes_between(own, last_numbers_);
  LeafNumbers best = own;
  std::size_t low = 0, high = changes.size() + 1;
  while (high - low > 1 && !clock_.over()) {
    const std::size_t count = (low + high) / 2;
    LeafNumbers numbers = bound_.balanced(with_changes(own, changes, count), *grid_);
    if (bound_.value(numbers, limits) < aim()) {
      high = count;
    } else {
      low = count;
      best = std::move(numbers);
    }
  }
  return best;
}

// A leaf whose differences are past their limit gets the numbers of the leaf before.
void RouteSearch::add_leaf(const Tree::Place& leaf, const std::vector<Limit>& limits) {
  LeafNumbers numbers = near_last(leaf.numbers, limits);
  if (numbers.potentials.empty()) numbers.potentials.assign(instance_.nodes(), 0);
  made_.add_leaf(numbers);
  TreeStep& step = made_.certificate().steps.back();
  const std::size_t count = differences(std::get<Numbers>(step), last_);
  if (differences_ + count > plan_.limits.differences) {
    limited_ = true;
    if (last_.potentials.empty()) last_.potentials.assign(instance_.nodes(), 0);
    step = last_;
    numbers = certificates_.numbers_of(made_.certificate(), last_, 1);
  } else {
    differences_ += count;
    last_ = std::get<Numbers>(step);
  }
  last_numbers_ = numbers;
  const Value value = bound_.value(numbers, limits);
  least_ = std::min(least_, value);
  if (!leaf.done || value < aim()) open_leaves_.push_back(leaves_);
}

Certificate RouteSearch::certificate() {
  if (!open_leaves_.empty()) made_.certificate().notes["open"] = std::to_string(open_leaves_.size());
  if (plan_.split > 0) {
    for (const auto& [value, place] : tree_.open()) {
      if (!tree_[-place].start) continue;
      for (const NodeSet& set : tree_[-place].start->sets) made_.add_set(set);
    }
  }
  return made_.certificate();
}

void RouteSearch::run() {
  if (begin_.tree && !begin_.leaf) {
    take_tree(*begin_.tree);
  } else {
    solve_first();
  }
  solve_cases();
  coarsen();
  list_tree([this](int place) { add_leaf(tree_[place], limits_of(place)); });
  log("end", std::min(bound(), goal_.length));
  progress_.clear();
}
}  // namespace certify::routes
