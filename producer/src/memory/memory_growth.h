// Subset rows that a solution breaks, and memory where its runs need it.
//
// Rows of three customers are enumerated, and where few of them are broken, some grow to five. (Rows of four
// say no more than that each customer is served once.) A customer remembers another one where a run of the
// solution comes back to that, and it keeps a row where a run of the solution would else not pay for it: so
// customers keep few things. Sources: M. Jepsen, B. Petersen, S. Spoorendonk and D. Pisinger, Subset-row
// inequalities applied to the vehicle-routing problem with time windows, Operations Research 56 (2008); D.
// Pecin, A. Pessoa, M. Poggi and E. Uchoa, Improved branch-cut-and-price for capacitated vehicle routing,
// Mathematical Programming Computation 9 (2017).
#pragma once
#include "memory/run_program.h"

namespace certify::routes {
// A run that a solution uses, and how far.
struct UsedRun {
  double part;
  Route run;
};

class MemoryGrowth {
 public:
  MemoryGrowth(Memory& memory, std::vector<UsedRun> used, int bits);
  // Customers remember more where used runs have cycles, the most used first. How many cycles can't come
  // again.
  int forbid_cycles();
  // Rows that are broken join the memory, and others are kept by more customers. How many.
  int add_rows();

 private:
  struct Broken {
    double violation;
    NodeSet set;
  };
  // How often a used run comes to a customer, if it does.
  struct Visits {
    int run, times;
  };
  // A set of customers, and how often used runs would pay for its row if all customers kept it.
  class Tally {
   public:
    explicit Tally(const std::vector<UsedRun>& used) : used_(used), counts_(used.size(), 0) {}
    void add(const std::vector<Visits>& visits) { change(visits, 1); }
    void remove(const std::vector<Visits>& visits) { change(visits, -1); }
    double payments() const { return payments_; }
    // With one customer more.
    double payments_with(const std::vector<Visits>& visits) const;

   private:
    void change(const std::vector<Visits>& visits, int sign);
    const std::vector<UsedRun>& used_;
    std::vector<int> counts_;
    double payments_ = 0;
  };
  double payments_of(const NodeSet& set) const;
  std::vector<Broken> triples(double least) const;
  std::optional<Broken> grown(const NodeSet& triple) const;
  std::vector<Broken> broken_fives() const;
  int add_some(const std::vector<Broken>& broken);
  bool widen(SubsetRow& row, bool fresh);
  bool has_room(const Bits& customers, const Bits& have) const;
  bool add_row(const NodeSet& set);

  Memory& memory_;
  std::vector<UsedRun> used_;  // the most used first
  const int bits_;
  std::vector<int> kept_;                    // by customer: what it keeps
  std::vector<std::vector<Visits>> visits_;  // by customer
};
}  // namespace certify::routes
