#include "memory/label_search.h"

#include <algorithm>
#include <set>

#include "memory/memory_parameters.h"

namespace certify::routes {
void LabelSearch::list_links(const Links<double>& links, int count) {
  next_.assign(nodes_, {});
  for (int v = 1; v < nodes_; v++) {
    std::vector<std::pair<double, int>> lightest;
    for (int to = 1; to < nodes_; to++) {
      if (to != v) lightest.emplace_back(links[static_cast<std::size_t>(v) * nodes_ + to], to);
    }
    std::sort(lightest.begin(), lightest.end());
    if (count > 0) lightest.resize(std::min(lightest.size(), static_cast<std::size_t>(count)));
    for (const auto& [weight, to] : lightest) next_[v].push_back(to);
  }
}

void LabelSearch::offer(const Label& label) {
  if (label.weight + home_(loads_.room - label.load, label.customer) > -kRuns.least) return;
  cell(label.load, label.customer).push_back(static_cast<int>(labels_.size()));
  labels_.push_back(label);
}

bool LabelSearch::is_dominated(const Label& label, const MemoryWords<double>& words) const {
  for (const Kept& by : kept_[label.customer]) {
    if (by.weight > label.weight) return false;
    const std::optional<double> more = words.more_than(label.customer, by.word, label.word);
    if (more && by.weight + *more <= label.weight) return true;
  }
  return false;
}

void LabelSearch::keep(const Label& label) {
  std::vector<Kept>& kept = kept_[label.customer];
  const auto heavier =
      std::upper_bound(kept.begin(), kept.end(), label.weight,
                       [](double weight, const Kept& other) { return weight < other.weight; });
  kept.insert(heavier, {label.weight, label.word});
}

void LabelSearch::go_on(int number, const Task& task) {
  const Label label = labels_[number];  // (a copy: more labels may move them)
  const double* const from = &task.links[static_cast<std::size_t>(label.customer) * nodes_];
  if (label.weight + from[0] < -kRuns.least) ended_.push_back({label.weight + from[0], number});
  for (const int to : next_[label.customer]) {
    const int load = label.load + loads_.of[to];
    if (load > loads_.room) continue;
    const double weight = label.weight + from[to];
    if (weight + home_(loads_.room - load, to) > -kRuns.least) continue;
    if (task.words.remembers(label.customer, label.word, to)) continue;
    Word word = label.word;
    const double cost = task.words.go_on(label.customer, to, word);
    offer({weight + cost, word, to, load, number});
  }
}

// The labels of a load and customer, the lightest first.
void LabelSearch::sweep(int load, int customer, const Task& task) {
  std::vector<int>& own = cell(load, customer);
  std::sort(own.begin(), own.end(), [&](int a, int b) {
    return labels_[a].weight != labels_[b].weight ? labels_[a].weight < labels_[b].weight : a < b;
  });
  int kept = 0;
  for (const int label : own) {
    if (task.labels > 0 && kept >= task.labels) return;
    if (is_dominated(labels_[label], task.words)) continue;
    kept++;
    keep(labels_[label]);
    go_on(label, task);
  }
}

Route LabelSearch::run_of(int label) const {
  Route run;
  for (; label >= 0; label = labels_[label].before) run.push_back(labels_[label].customer);
  std::reverse(run.begin(), run.end());
  return run;
}

std::vector<Route> LabelSearch::best_runs(std::size_t most) {
  std::sort(ended_.begin(), ended_.end());
  std::vector<int> ends(nodes_, 0);
  std::set<Route> met;
  std::vector<Route> runs;
  for (const Ended& ended : ended_) {
    if (runs.size() >= most) break;
    if (ends[labels_[ended.label].customer] >= kRuns.of_end) continue;
    Route run = run_of(ended.label);
    const Route back(run.rbegin(), run.rend());
    if (!met.insert(instance_.symmetric ? std::min(run, back) : run).second) continue;
    ends[run.back()]++;
    runs.push_back(std::move(run));
  }
  return runs;
}

LabelSearch::Found LabelSearch::find(const Links<double>& links, const MemoryWords<double>& words,
                                     const Effort& effort, std::size_t most) {
  home_.fill(links);
  list_links(links, effort.links);
  labels_.clear();
  ended_.clear();
  cells_.assign(static_cast<std::size_t>(loads_.cells()), {});
  kept_.assign(nodes_, {});
  for (int v = 1; v < nodes_; v++) {
    if (loads_.of[v] <= loads_.room) offer({links[v], words.first(v), v, loads_.of[v], -1});
  }
  const Task task{links, words, effort.labels};
  Found found;
  for (int load = 1; load <= loads_.room && found.whole; load++) {
    for (int v = 1; v < nodes_; v++) {
      if (!cell(load, v).empty()) sweep(load, v, task);
    }
    found.whole = labels_.size() <= kRuns.labels;
  }
  found.runs = best_runs(most);
  if (!ended_.empty()) found.least = ended_.front().weight;
  return found;
}
}  // namespace certify::routes
