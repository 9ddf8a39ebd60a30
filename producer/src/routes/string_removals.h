// Plans of routes by slack induction by string removals.
//
// Strings of near customers leave their routes, and come back one by one where they cost least, while some
// places are overlooked by chance. Simulated annealing decides what stays. It takes any costs. Source:
// J. Christiaens and G. Vanden Berghe, Slack induction by string removals for vehicle routing problems,
// Transportation Science 54 (2020).
#pragma once
#include <functional>
#include <optional>
#include <set>

#include "routes/cvrp.h"
#include "routes/route_parameters.h"
#include "running/random.h"

namespace certify::routes {
class StringRemovals {
 public:
  StringRemovals(const CvrpInstance& instance, std::uint64_t seed);
  // Begins with these routes, else with a route for each customer. The best plan of as many steps; of fewer
  // where used() tells that more of the time is over than of the steps.
  Routes run(const Routes& first, std::int64_t steps, const std::function<double()>& used);
  // Routes of plans that it met late.
  const std::set<Route>& met() const { return met_; }

 private:
  struct Saved {
    int route;
    Route customers;
  };
  struct Spot {
    int route = -1, after = 0;  // after the depot: 0
    Weight cost = 0;
  };
  void list_neighbours();
  void set_temperatures();
  void take(const Routes& routes);
  Routes listed() const;
  Route customers_of(int route) const;
  void save(int route);
  void relink(int route, const Route& customers);
  void unlink(int customer);
  void link(int customer, const Spot& spot);
  void remove_strings();
  void remove_string(int customer, double longest);
  void sort_removed();
  void try_after(int customer, int route, int after, Spot& best);
  Spot near_spot(int customer);
  Spot any_spot(int customer);
  int empty_route();
  void put_back(int customer);
  void restore();

  const CvrpInstance& instance_;
  const int nodes_;
  Random random_;
  Neighbours near_;
  double first_temperature_ = 1, last_temperature_ = 1;
  std::vector<int> next_, previous_, route_of_;  // of a customer; 0 is the depot, and -1 no route
  std::vector<int> first_, sizes_;               // of a route
  std::vector<Weight> loads_;
  int routes_ = 0;  // that aren't empty
  Weight length_ = 0;
  // of the step at hand
  std::vector<Saved> saved_;
  std::vector<int> saved_in_;  // the step in which a route was saved last
  int step_ = 0;
  std::vector<int> removed_;
  std::set<Route> met_;
};

struct FoundRoutes {
  Routes best;
  std::vector<Route> met;  // routes of good plans
};

// The best of several runs, which depend on the seed alone where there is time.
FoundRoutes find_routes(const CvrpInstance& instance, const std::optional<Routes>& given, std::uint64_t seed,
                        const std::function<double()>& used,
                        std::int64_t steps_of_customer = kRemovals.steps);
}  // namespace certify::routes
