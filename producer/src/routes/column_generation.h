// Column generation: walks join the program until none weighs less than 0 under its duals.
//
// Duals are mixed with the best ones so far, which keeps them from swinging. Sources: P. Wentges, Weighted
// Dantzig-Wolfe decomposition for linear mixed-integer programming, International Transactions in Operational
// Research 4 (1997); A. Pessoa, R. Sadykov, E. Uchoa and F. Vanderbeck, Automation and combination of
// linear-programming based stabilization techniques in column generation, INFORMS Journal on Computing 30
// (2018).
#pragma once
#include <functional>

#include "routes/walk_program.h"

namespace certify::routes {
class ColumnGeneration {
 public:
  // When it ends: where the bound is above the goal, or as near to the program's value as the tolerance, or
  // late. With `strict` it goes on where the program's value is above the goal.
  struct Ending {
    double goal, tolerance;
    bool strict;
    const std::function<bool()>& late;
  };
  ColumnGeneration(const CvrpInstance& instance, const Loads& loads, WalkProgram& program,
                   const std::vector<Limit>& limits);
  // Duals to begin with, which are the best ones until others are better.
  void set_best(const Duals& duals) { best_ = duals; }
  // Duals to begin with, where there are no better ones: each route of the plan pays for its customers. They
  // are scaled so that the bound is best.
  void begin_with(const Routes& plan, const std::function<bool()>& late);
  // The bound of the best duals.
  double run(const Ending& ending);
  // The program's value after as many rounds of walks over few links. It tends to be above the bound.
  double estimate(int rounds);
  const Duals& best() const { return best_; }
  double bound() const { return bound_; }
  // Whether walks were priced yet.
  bool has_bound() const { return !best_.potentials.empty() && bound_ > kNoBound; }

 private:
  static constexpr double kNoBound = -1e30;
  double bound_of(Duals& duals, double least_walk) const;
  Duals mixed(const Duals& duals, double part) const;
  Duals duals_by(const Routes& plan) const;
  int add_walks(const Duals& duals);
  bool price_few(const Duals& duals, const Duals& mixed);
  int price(const Duals& duals, Duals mixed);

  const CvrpInstance& instance_;
  WalkProgram& program_;
  WalkTable<double> table_;
  const std::map<NodeSet, Crossings> limited_;
  const bool large_;  // the table of walks takes long
  Duals best_;
  double bound_;
};
}  // namespace certify::routes
