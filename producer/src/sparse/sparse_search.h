// A certificate of one leaf for a large instance of points: a tour, rounds of cuts until the time is over or
// they stop to help, and whole numbers. It holds no matrix.
// Source: D. Applegate, R. Bixby, V. Chvatal and W. Cook, The Traveling Salesman Problem (2006).
#pragma once
#include <optional>

#include "potentials/ascent.h"
#include "running/progress.h"
#include "sparse/sparse_leaf.h"
#include "sparse/sparse_separation.h"
#include "sparse/tour_passes.h"

namespace sparse {
struct SparseStart {
  std::optional<Tour> tour;  // the named one, by the numbers of the problem
  std::uint64_t seed = 1;
  std::optional<Weight> upper;  // a bound of as much is enough
  certify::TimeLimit limit{};   // that of the clock
};

class SparseSearch {
 public:
  SparseSearch(const Problem& problem, SparseStart start, const certify::Clock& clock,
               certify::Progress& progress)
      : problem_(problem),
        start_(std::move(start)),
        clock_(clock),
        progress_(progress),
        pool_(problem.nodes()) {}
  void run();
  certify::Certificate certificate() const { return leaf_->certificate(numbers_); }
  const Tour& tour() const { return tours_[0]; }
  Weight length() const;
  // The bound as reckoned here.
  Weight bound() const { return leaf_->bound_of(value_); }

 private:
  void ascend();
  void find_tours();
  Tour looked_for();
  bool pass_regions(double part);
  void take_tour();
  void shorten_tour();
  Weight value_so_far() const;
  void begin_program();
  bool cut_subtours();
  void tidy(int round);
  bool goes_further();
  bool adds_combs();
  void cut();
  bool stalled() const;
  void take(Numbers numbers);
  int judge();
  bool keep_combs_of_file();
  void settle();
  bool reaches() const { return program_->value() > static_cast<double>(target()) - 1; }
  Weight target() const { return start_.upper ? std::min(*start_.upper, length()) : length(); }
  void note(std::string_view event, Weight bound);

  const Problem& problem_;
  const SparseStart start_;
  const certify::Clock& clock_;
  certify::Progress& progress_;
  CutPool pool_;
  std::vector<double> duals_;              // of the ascent
  std::vector<potentials::Edge> support_;  // of its trees
  std::vector<Tour> tours_;                // the best one first
  std::optional<TourPasses> passes_;
  std::optional<SparseProgram> program_;
  std::optional<SparseSeparation> separation_;
  std::optional<SparseLeaf> leaf_;
  std::vector<double> values_;  // of the last rounds
  int level_ = 0;               // as often climbs were doubled
  bool far_ = false;            // cuts may have large sets
  Numbers numbers_;             // the best ones
  Value value_ = certify::ExactBound::nothing();
};
}  // namespace sparse
