#include "tree/near_chains.h"

#include <algorithm>
#include <memory>
#include <numeric>
#include <optional>

#include "running/parameters.h"
#include "running/threads.h"
#include "tree/bound_for.h"

namespace certify {
namespace {
// A chain at work. It has a bound and a linear program of its own.
class NearChain {
 public:
  // Linear programs take time until this part of the clock's is over.
  NearChain(const NearTask& task, double part_of_time)
      : task_(task),
        part_of_time_(part_of_time),
        bound_(bound_for(task.problem.instance, task.pool, task.problem.scale)),
        made_(*bound_, task.pool, task.problem.instance.directed) {
    bound_->add_likely(task.problem.edges);
  }
  // The numbers of the next leaf.
  Numbers next(const ListedLeaf& leaf, const Numbers& last) {
    if (!leaf.done || last.potentials.empty() || task_.clock.over()) return *leaf.own;
    return near(leaf, last);
  }

 private:
  Numbers near(const ListedLeaf& leaf, const Numbers& last) {
    if (bound_->reaches(last, leaf.decisions, made_.goal(task_.target))) return last;
    made_.set_last(last);
    Numbers near = made_.near_last(*leaf.own, leaf.decisions, task_.target);
    if (!task_.by_programs || task_.problem.instance.directed) return near;
    if (!program_) program_.emplace(task_.problem, task_.pool, *bound_, task_.clock, part_of_time_);
    const std::optional<Numbers> found =
        program_->find({last, *leaf.own, leaf.decisions, made_.goal(task_.target), task_.grid});
    if (!found) return near;
    Numbers nearer = made_.near_last(*found, leaf.decisions, task_.target);
    return differences(nearer, last) < differences(near, last) ? nearer : near;
  }

  const NearTask& task_;
  const double part_of_time_;
  const std::unique_ptr<ExactBound> bound_;
  Leaves made_;
  std::optional<NearProgram> program_;
};
}  // namespace

std::vector<Chain> chains_of(int leaves) {
  const int anchors = leaves < kLeaves.leaves_of_two_anchors    ? 1
                      : leaves < kLeaves.leaves_of_four_anchors ? 2
                                                                : 4;
  std::vector<Chain> chains;
  for (int k = 0; k < anchors; k++) {
    const int begin = leaves * k / anchors, end = leaves * (k + 1) / anchors, anchor = (begin + end) / 2;
    Chain before(anchor - begin + 1), after(end - anchor);
    std::iota(before.rbegin(), before.rend(), begin);
    std::iota(after.begin(), after.end(), anchor);
    chains.push_back(std::move(before));
    chains.push_back(std::move(after));
  }
  return chains;
}

// Linear programs take half of the time that is left at most, since other leaves need some too.
std::vector<Numbers> near_numbers(const NearTask& task, const std::vector<ListedLeaf>& leaves) {
  const std::vector<Chain> chains = chains_of(static_cast<int>(leaves.size()));
  const double part_of_time = (1 + task.clock.used()) / 2;
  std::vector<Numbers> numbers(leaves.size());
  for (const Chain& chain : chains) numbers[chain[0]] = *leaves[chain[0]].own;
  for_each_at_once(chains.size(), [&](std::size_t k) {
    const Chain& chain = chains[k];
    if (chain.size() == 1) return;
    NearChain links(task, part_of_time);
    for (std::size_t place = 1; place < chain.size(); place++)
      numbers[chain[place]] = links.next(leaves[chain[place]], numbers[chain[place - 1]]);
  });
  return numbers;
}
}  // namespace certify
