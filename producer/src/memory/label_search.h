// Runs of least weight by labels: runs so far, of which those go on that no other one dominates.
//
// A label dominates another one to the same customer with at least its load, where it weighs no more even if
// it pays for each row that it alone has open, and remembers no other customers. Labels that can't end below
// 0 by the lightest way home are left out. Source: D. Pecin, A. Pessoa, M. Poggi and E. Uchoa, Improved
// branch-cut-and-price for capacitated vehicle routing, Mathematical Programming Computation 9 (2017).
#pragma once
#include "memory/memory_words.h"
#include "memory/ways_home.h"

namespace certify::routes {
class LabelSearch {
 public:
  // So many labels of a load and customer go on, over so many of the lightest links from a customer; 0 for
  // all. With all of both the least run is found.
  struct Effort {
    int labels = 0, links = 0;
  };
  struct Found {
    double least = 0;           // the weight of the lightest run, if it is below 0
    std::vector<Route> runs{};  // of weight below 0, the lightest first
    bool whole = true;          // no labels were left out because there were too many
  };
  LabelSearch(const CvrpInstance& instance, const Loads& loads)
      : instance_(instance), loads_(loads), nodes_(instance.nodes()), home_(loads_) {}
  Found find(const Links<double>& links, const MemoryWords<double>& words, const Effort& effort,
             std::size_t most);
  std::size_t labels() const { return labels_.size(); }

 private:
  struct Label {
    double weight;
    Word word;
    int customer, load, before;  // before: the label that it goes on from, or below 0
  };
  // A label that went on.
  struct Kept {
    double weight;
    Word word;
  };
  struct Ended {
    double weight;
    int label;
    auto operator<=>(const Ended&) const = default;
  };
  // What a search is over.
  struct Task {
    const Links<double>& links;
    const MemoryWords<double>& words;
    int labels;  // of a load and customer that go on, or 0 for all
  };
  void list_links(const Links<double>& links, int count);
  void offer(const Label& label);
  bool is_dominated(const Label& label, const MemoryWords<double>& words) const;
  void keep(const Label& label);
  void go_on(int number, const Task& task);
  void sweep(int load, int customer, const Task& task);
  Route run_of(int label) const;
  std::vector<Route> best_runs(std::size_t most);
  std::vector<int>& cell(int load, int customer) {
    return cells_[static_cast<std::size_t>(load) * nodes_ + customer];
  }

  const CvrpInstance& instance_;
  const Loads& loads_;
  const int nodes_;
  WaysHome<double> home_;
  std::vector<Label> labels_;
  std::vector<std::vector<int>> cells_;  // labels by load and customer
  std::vector<std::vector<Kept>> kept_;  // by customer, the lightest first
  std::vector<std::vector<int>> next_;   // customers that a run goes on to
  std::vector<Ended> ended_;
};
}  // namespace certify::routes
