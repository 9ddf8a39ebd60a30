#include "memory/memory_growth.h"

#include <algorithm>
#include <map>

#include "memory/memory_parameters.h"

namespace certify::routes {
namespace {
// The customers between two visits of the same one, where these are nearest; that one comes first.
NodeSet shortest_cycle(const Route& run) {
  NodeSet cycle;
  for (std::size_t i = 0; i < run.size(); i++) {
    for (std::size_t j = i + 1; j < run.size(); j++) {
      if (run[i] != run[j]) continue;
      if (cycle.empty() || j - i < cycle.size()) {
        cycle.assign(run.begin() + static_cast<std::ptrdiff_t>(i),
                     run.begin() + static_cast<std::ptrdiff_t>(j));
      }
      break;
    }
  }
  return cycle;
}

// The customers that have to keep a row so that the run pays as often as it can.
Bits needed_keepers(const SubsetRow& row, const Route& run) {
  Bits needed;
  int last = -1;
  for (int k = 0; k < static_cast<int>(run.size()); k++) {
    if (!row.inside.has(run[k])) continue;
    if (last < 0) {
      last = k;
      continue;
    }
    for (int between = last; between <= k; between++) needed.add(run[between]);
    last = -1;
  }
  return needed;
}

int most_payments(const SubsetRow& row, const Route& run) {
  return static_cast<int>(std::count_if(run.begin(), run.end(), [&](int v) { return row.inside.has(v); })) /
         2;
}
}  // namespace

void MemoryGrowth::Tally::change(const std::vector<Visits>& visits, int sign) {
  for (const Visits& own : visits) {
    int& count = counts_[own.run];
    payments_ -= used_[own.run].part * (count / 2);
    count += sign * own.times;
    payments_ += used_[own.run].part * (count / 2);
  }
}

double MemoryGrowth::Tally::payments_with(const std::vector<Visits>& visits) const {
  double sum = payments_;
  for (const Visits& own : visits) {
    const int count = counts_[own.run];
    sum += used_[own.run].part * ((count + own.times) / 2 - count / 2);
  }
  return sum;
}

MemoryGrowth::MemoryGrowth(Memory& memory, std::vector<UsedRun> used, int bits)
    : memory_(memory), used_(std::move(used)), bits_(bits) {
  std::stable_sort(used_.begin(), used_.end(),
                   [](const UsedRun& a, const UsedRun& b) { return a.part > b.part; });
  for (int v = 0; v < static_cast<int>(memory.near.size()); v++) kept_.push_back(memory.kept_at(v));
  visits_.resize(memory.near.size());
  for (std::size_t k = 0; k < used_.size(); k++) {
    std::map<int, int> times;
    for (const int v : used_[k].run) times[v]++;
    for (const auto& [v, count] : times) visits_[v].push_back({static_cast<int>(k), count});
  }
}

int MemoryGrowth::forbid_cycles() {
  int forbidden = 0;
  for (const UsedRun& used : used_) {
    const NodeSet cycle = shortest_cycle(used.run);
    if (cycle.empty()) continue;
    const auto grows = [&](int v) { return v != cycle[0] && !memory_.near[v].has(cycle[0]); };
    if (std::any_of(cycle.begin(), cycle.end(), [&](int v) { return grows(v) && kept_[v] >= bits_; }))
      continue;
    bool any = false;
    for (const int v : cycle) {
      if (!grows(v)) continue;
      memory_.near[v].add(cycle[0]);
      kept_[v]++;
      any = true;
    }
    forbidden += static_cast<int>(any);
  }
  return forbidden;
}

double MemoryGrowth::payments_of(const NodeSet& set) const {
  Tally tally(used_);
  for (const int v : set) tally.add(visits_[v]);
  return tally.payments();
}

// Rows of three whose violation is more than this, the most broken first.
std::vector<MemoryGrowth::Broken> MemoryGrowth::triples(double least) const {
  std::vector<Broken> broken;
  const int nodes = static_cast<int>(visits_.size());
  Tally tally(used_);
  for (int i = 1; i < nodes; i++) {
    tally.add(visits_[i]);
    for (int j = i + 1; j < nodes; j++) {
      tally.add(visits_[j]);
      for (int l = j + 1; l < nodes; l++) {
        const double violation = tally.payments_with(visits_[l]) - 1;
        if (violation > least) broken.push_back({violation, {i, j, l}});
      }
      tally.remove(visits_[j]);
    }
    tally.remove(visits_[i]);
  }
  std::stable_sort(broken.begin(), broken.end(),
                   [](const Broken& a, const Broken& b) { return a.violation > b.violation; });
  return broken;
}

// The most broken row of five that has these three customers, if there is any.
std::optional<MemoryGrowth::Broken> MemoryGrowth::grown(const NodeSet& triple) const {
  Broken best{kSubsetRows.least_violation, {}};
  const int nodes = static_cast<int>(visits_.size());
  Tally tally(used_);
  for (const int v : triple) tally.add(visits_[v]);
  const auto has = [&](int v) { return std::find(triple.begin(), triple.end(), v) != triple.end(); };
  for (int a = 1; a < nodes; a++) {
    if (has(a)) continue;
    tally.add(visits_[a]);
    for (int b = a + 1; b < nodes; b++) {
      if (has(b)) continue;
      const double violation = tally.payments_with(visits_[b]) - 2;
      if (violation <= best.violation) continue;
      best = {violation, triple};
      best.set.insert(best.set.end(), {a, b});
    }
    tally.remove(visits_[a]);
  }
  if (best.set.empty()) return std::nullopt;
  std::sort(best.set.begin(), best.set.end());
  return best;
}

std::vector<MemoryGrowth::Broken> MemoryGrowth::broken_fives() const {
  std::vector<Broken> seeds = triples(kSubsetRows.least_of_triple), fives;
  seeds.resize(std::min(seeds.size(), kSubsetRows.grown));
  for (const Broken& seed : seeds) {
    std::optional<Broken> five = grown(seed.set);
    const auto is_met = [&](const Broken& other) { return other.set == five->set; };
    if (five && std::none_of(fives.begin(), fives.end(), is_met)) fives.push_back(std::move(*five));
  }
  std::stable_sort(fives.begin(), fives.end(),
                   [](const Broken& a, const Broken& b) { return a.violation > b.violation; });
  return fives;
}

// Whether each of the customers that doesn't keep a row yet may keep one thing more.
bool MemoryGrowth::has_room(const Bits& customers, const Bits& have) const {
  bool room = true;
  customers.without(have).each([&](int v) { room = room && kept_[v] < bits_; });
  return room;
}

// More customers keep the row, for used runs that could pay more, as far as there is room.
bool MemoryGrowth::widen(SubsetRow& row, bool fresh) {
  bool any = fresh;
  for (const UsedRun& used : used_) {
    if (payments(row, used.run) >= most_payments(row, used.run)) continue;
    const Bits needed = needed_keepers(row, used.run);
    if (!has_room(needed, row.keepers)) continue;
    needed.without(row.keepers).each([&](int v) { kept_[v]++; });
    row.keepers = row.keepers | needed;
    any = true;
  }
  return any;
}

// False where the row isn't broken enough by what customers have room for.
bool MemoryGrowth::add_row(const NodeSet& set) {
  SubsetRow row = row_of(set);
  if (!has_room(row.keepers, {})) return false;
  const std::vector<int> before = kept_;
  for (const int v : set) kept_[v]++;
  widen(row, true);
  double sum = -row.half();
  for (const UsedRun& used : used_) sum += used.part * payments(row, used.run);
  if (sum < kSubsetRows.least_violation) {
    kept_ = before;
    return false;
  }
  memory_.rows.push_back(std::move(row));
  return true;
}

// Adds the rows that there is room for, at most a few that have one customer. How many.
int MemoryGrowth::add_some(const std::vector<Broken>& broken) {
  std::vector<int> of_customer(visits_.size(), 0);
  int added = 0;
  for (const Broken& one : broken) {
    if (added >= static_cast<int>(kSubsetRows.most_at_once) || memory_.rows.size() >= kMemory.most_rows)
      break;
    if (memory_.place_of(one.set) >= 0) continue;
    if (std::any_of(one.set.begin(), one.set.end(),
                    [&](int v) { return of_customer[v] >= kSubsetRows.most_of_customer; })) {
      continue;
    }
    if (!add_row(one.set)) continue;
    added++;
    for (const int v : one.set) of_customer[v]++;
  }
  return added;
}

int MemoryGrowth::add_rows() {
  int changed = 0;
  for (SubsetRow& row : memory_.rows) {
    const double violation = payments_of(row.set) - row.half();
    if (violation > kSubsetRows.least_violation) changed += static_cast<int>(widen(row, false));
  }
  int added = add_some(triples(kSubsetRows.least_violation));
  if (added < static_cast<int>(kSubsetRows.few_triples)) added += add_some(broken_fives());
  return changed + added;
}
}  // namespace certify::routes
