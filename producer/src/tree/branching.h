// Strong branching: candidates are tried by few dual iterations, and the best of them by more. What a pair
// gained when it was tried a short time ago isn't tried again.
// Source: D. Applegate, R. Bixby, V. Chvatal and W. Cook, The Traveling Salesman Problem (2006).
#pragma once
#include <array>
#include <map>
#include <optional>

#include "tree/relaxation.h"

namespace certify {
// What candidates gained, of the values 0 and 1; nothing where that wasn't tried.
using Gains = std::array<std::optional<double>, 2>;
struct Known {
  Gains gains{};
  double score = 0;
  int when = 0;  // the number of the choice
};
struct History {
  int choices = 0;
  std::map<Pair, Known> known;
};

class Branching {
 public:
  explicit Branching(const Matrix& weights) : weights_(weights) {}
  // A pair to branch on that the solution uses in part, where there is one.
  std::optional<Pair> choose(Relaxation& relaxation, double target);
  // The leaves of a tree where each branch gains as much as the last choice.
  double leaves() const;
  const History& history() const { return history_; }
  void set_history(const History& history) { history_ = history; }
  // Forgets what was tried: the linear program became another one.
  void forget() { history_.known.clear(); }

 private:
  struct Candidate {
    int column;
    Gains gains{};
    int first = 0;     // the value that is tried first
    double score = 0;  // where not all was tried, no less than it would be
  };
  // How a score is reckoned.
  struct Trial {
    int iterations;
    double gap;
    std::size_t wanted;  // as many of the best have a score that is exact
  };
  std::vector<Candidate> candidates(const Relaxation& relaxation, double target) const;
  Candidate candidate_of(const Relaxation& relaxation, int column) const;
  static double part(const Candidate& candidate, int value, const Trial& trial);
  static void try_values(const Relaxation& relaxation, const std::vector<Candidate*>& candidates, bool second,
                         const Trial& trial);
  static void score(const Relaxation& relaxation, std::vector<Candidate>& candidates, const Trial& trial);

  const Matrix& weights_;
  std::array<double, 2> gained_{};  // by the last choice, as parts of the gap
  History history_;
};
}  // namespace certify
