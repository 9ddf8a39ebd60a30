// Loads of customers in a unit, and the least walks over them.
//
// A walk goes from the depot through customers and back, with loads that sum to at most the room. It may
// visit a customer again, but neither twice in a row nor a, b, a in a row. Each route of a plan is a walk,
// and the least one is found by a table. Source: N. Christofides, A. Mingozzi and P. Toth, Exact algorithms
// for the vehicle routing problem, Mathematical Programming 20 (1981).
#pragma once
#include <cstdint>
#include <limits>
#include <optional>

#include "routes/cvrp.h"

namespace certify::routes {
constexpr Weight kMostLoads = 10000000;  // of a file: nodes times (room + 1)

struct Loads {
  Weight unit = 1;
  std::vector<int> of;  // each node; at least 1 of a customer
  int room = 0;
  std::int64_t cells() const { return static_cast<std::int64_t>(of.size()) * (room + 1); }
};

// Demands rounded down to units. Where some then are 0, all loads grow, so that these are 1. Nothing where
// there are too many loads.
std::optional<Loads> loads_in(const CvrpInstance& instance, Weight unit, Weight most = kMostLoads);
// The finest loads of at most as many cells: in units of the greatest common divisor, if they are few enough.
Loads finest_loads(const CvrpInstance& instance, Weight most);

template <typename W>
struct Walk {
  W weight;
  Route customers;
};

// The weights of links between nodes, row by row.
template <typename W>
using Links = std::vector<W>;

// W is a whole number or a double.
template <typename W>
class WalkTable {
 public:
  explicit WalkTable(const Loads& loads) : loads_(loads), nodes_(static_cast<int>(loads.of.size())) {}
  // The weight of a least walk; none() where there is no walk. Sums of weights have to stay below none() / 2.
  W least(const Links<W>& links);
  // The same over as many of the lightest links to each customer. So it is never below least().
  W least_of_few(const Links<W>& links, int count);
  // The least walks that end with each customer, the least first.
  std::vector<Walk<W>> walks(std::size_t most) const;
  static constexpr W none() {
    if constexpr (std::numeric_limits<W>::is_integer) return W{1} << 61;
    return W(1e30);
  }

 private:
  // The least walk with a load to a customer, and the least one that comes from elsewhere.
  struct Best {
    W first, second;
    int from_first, from_second;
  };
  struct End {
    W weight;
    int load;
  };
  struct Link {
    W weight;
    int from;
    auto operator<=>(const Link&) const = default;
  };
  W least_over(const Links<W>& links, int count, bool all);
  void begin(const Links<W>& links, int count);
  void list_light(int customer, int count);
  void fill(const Links<W>& links, bool all);
  void put(int load, int customer, const Best& best);
  void try_from(int load, int customer, int from, W link, Best& best) const;
  Best from_light(int load, int customer, bool all) const;
  Route walk_to(int customer) const;
  std::size_t cell(int load, int customer) const {
    return static_cast<std::size_t>(load) * nodes_ + customer;
  }

  const Loads& loads_;
  const int nodes_;
  std::vector<W> first_, second_;                       // of each load and customer
  std::vector<std::int16_t> from_first_, from_second_;  // the customer before, or the depot
  std::vector<W> into_;                                 // links into each node, row by row
  std::vector<std::vector<Link>> light_;                // the lightest links into each customer, in order
  std::vector<W> least_;                                // of each load, over its walks
  std::vector<End> ends_;                               // of each customer, the way back included
};

extern template class WalkTable<double>;
extern template class WalkTable<Weight>;
}  // namespace certify::routes
