// A linear program whose columns are routes of some kind, by Clp: what those over walks and over runs have in
// common.
//
// Its first rows say that each customer is visited once. What further rows say is up to the program, and so
// is what prices new columns.
#pragma once
#include <array>
#include <coin/ClpSimplex.hpp>
#include <set>

#include "cuts/support.h"
#include "routes/customer_sets.h"

namespace certify::routes {
class RouteProgram {
 public:
  double value() const { return program_.objectiveValue(); }
  // How much each link is used, in both directions together.
  Graph support() const;

 protected:
  // The entries of columns, one column after the other.
  struct Columns {
    std::vector<CoinBigIndex> starts{0};
    std::vector<int> rows;
    std::vector<double> elements, costs;
    void add(int row, double element) {
      rows.push_back(row);
      elements.push_back(element);
    }
    void end(double cost) {
      starts.push_back(static_cast<CoinBigIndex>(rows.size()));
      costs.push_back(cost);
    }
  };
  explicit RouteProgram(const CvrpInstance& instance) : instance_(instance) {}
  int customers() const { return instance_.nodes() - 1; }
  // How often a route visits each of its customers.
  static void list_visits(const Route& route, Columns& columns);
  void add_columns(const Columns& columns);
  // A customer's dual is on both links of each visit.
  std::vector<double> potentials() const;
  // The routes with the least reduced costs, of as many customers at least.
  std::vector<Route> best_routes(std::size_t most, std::size_t fewest_customers) const;
  // What the objective gains, with at most as many dual iterations, where a set is crossed at most 2 t times,
  // and where it is crossed at least 2 t + 2 times. The last number is that of a case without a solution.
  std::array<double, 2> gains_by(const NodeSet& set, int t, int iterations, double without) const;
  // The entries of the row of a set.
  void list_crossings(const std::vector<char>& inside, std::vector<int>& columns,
                      std::vector<double>& elements) const;

  const CvrpInstance& instance_;
  ClpSimplex program_;
  std::vector<Route> routes_;  // by their columns; one without customers is elastic
  int first_ = 0;              // the column of the first route
  std::set<Route> known_;
};

// How often links of a route lead into a set or out of it.
int crossings_of(const Route& route, const std::vector<char>& inside);
}  // namespace certify::routes
