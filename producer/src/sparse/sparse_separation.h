// One round of cuts for a solution of a large linear program: of the pool, subtours, or combs with runs of
// tours as teeth. It needs no matrix.
// Source: D. Applegate, R. Bixby, V. Chvatal and W. Cook, The Traveling Salesman Problem (2006).
#pragma once
#include "cuts/cut_rounds.h"
#include "sparse/sparse_program.h"

namespace sparse {
class SparseSeparation {
 public:
  // The clock ends a search for combs early.
  SparseSeparation(const Problem& problem, CutPool& pool, SparseProgram& program, const certify::Clock& clock,
                   std::uint64_t seed)
      : problem_(problem), pool_(pool), program_(program), clock_(clock), random_(seed) {}
  // The runs of these are teeth, and those of tours along the solution. The best one comes first.
  void set_tours(std::vector<Tour> tours) { tours_ = std::move(tours); }
  // Adds subtours and cuts of the pool. How many joined.
  int add_subtours();
  // Where a round has at most as many, combs gain more.
  int few_subtours() const;
  // Adds combs and cuts of the pool, where few subtours are missed. Climbs are doubled as often as the level
  // says, and far sets are large ones.
  void add_combs(int level, bool far);

 private:
  struct Round {
    std::vector<int> cuts;
    std::vector<char> taken;  // of each cut of the pool
    certify::TakenCombs combs;
  };
  struct Trial;
  void begin(Round& round);
  void from_pool(Round& round);
  int subtours(Round& round, const std::vector<NodeSet>& sets);
  bool take(Round& round, int cut, double least_violation);
  void combs(Round& round, const certify::Effort& effort);
  certify::Effort effort_of(int level, bool far) const;
  Tour guided_tour();

  const Problem& problem_;
  CutPool& pool_;
  SparseProgram& program_;
  const certify::Clock& clock_;
  certify::Random random_;
  std::vector<Tour> tours_;
  certify::ViolationMeter meter_;  // of the solution at hand
  std::vector<signed char> rest_;  // of each cut of the pool, the rounds that it is left out
};
}  // namespace sparse
