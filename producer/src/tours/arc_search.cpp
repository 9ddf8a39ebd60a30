#include "tours/arc_search.h"

#include <algorithm>

#include "running/parameters.h"

namespace certify {
namespace {
constexpr int kFewest = 5;  // nodes; fewer have no kick
}  // namespace

ArcSearch::ArcSearch(const Matrix& costs, const Neighbours& near, std::uint64_t seed)
    : costs_(costs),
      near_(near),
      random_(seed),
      count_(costs.nodes()),
      place_(costs.nodes(), 0),
      queued_(costs.nodes(), 0) {
  for (int v = 0; v < count_; v++) {
    const Weight* row = costs.row(v);
    std::stable_sort(near_[v].begin(), near_[v].end(), [&](int a, int b) { return row[a] < row[b]; });
  }
}

void ArcSearch::take(const Tour& tour) {
  tour_ = tour;
  for (int k = 0; k < count_; k++) place_[tour_[k]] = k;
  length_ = length_of(costs_, tour_);
}

void ArcSearch::queue(int node) {
  if (queued_[node]) return;
  queued_[node] = 1;
  queue_.push_back(node);
}

// Exchanges the parts from behind a to c and from behind c to e: a d .. e b .. c f.
void ArcSearch::exchange(int a, int c, int e) {
  const int first = ahead(a, c);
  const int both = ahead(a, e);
  // the three parts lie in a ring, and to exchange any two of them is the same
  const int rest = count_ - both;
  int start = place_[a] + 1;
  int left = first;
  int right = both - first;
  if (first >= right && first >= rest) {
    start = place_[c] + 1;
    left = both - first;
    right = rest;
  } else if (right >= rest) {
    start = place_[e] + 1;
    left = rest;
    right = first;
  }
  const auto wrapped = [&](int place) { return place >= count_ ? place - count_ : place; };
  start = wrapped(start);
  moved_.resize(left + right);
  for (int k = 0; k < left + right; k++) moved_[k < left ? k + right : k - left] = tour_[wrapped(start + k)];
  for (int k = 0; k < left + right; k++) {
    const int place = wrapped(start + k);
    tour_[place] = moved_[k];
    place_[moved_[k]] = place;
  }
}

// The arcs from a and to d are gone, a goes on to d, and this much is gained: looks for the third arc.
bool ArcSearch::close(int a, int d, Weight gain) {
  const int b = next(a);
  const int c = before(d);
  const int part = ahead(a, d);
  for (const int f : near_[c]) {
    const Weight open = gain - costs_(c, f);
    if (open <= 0) return false;
    int places = ahead(a, f);
    if (places == 0) places = count_;
    if (places <= part) continue;
    const int e = before(f);
    const Weight saved = open + costs_(e, f) - costs_(e, b);
    if (saved <= 0) continue;
    exchange(a, c, e);
    length_ -= saved;
    for (const int end : {a, b, c, d, e, f}) queue(end);
    return true;
  }
  return false;
}

// The moves whose first arc leaves the node. Of each move that shortens the tour some order of its three arcs
// gains at each step.
bool ArcSearch::shorten(int a) {
  const int b = next(a);
  for (const int d : near_[a]) {
    const Weight gain = costs_(a, b) - costs_(a, d);
    if (gain <= 0) return false;
    const int c = before(d);
    if (c == a) continue;
    if (close(a, d, gain + costs_(c, d))) return true;
  }
  return false;
}

void ArcSearch::improve_queued() {
  while (!queue_.empty()) {
    const int node = queue_.back();
    queue_.pop_back();
    queued_[node] = 0;
    while (shorten(node)) continue;
  }
}

void ArcSearch::improve(Tour& tour) {
  take(tour);
  for (const int v : tour) queue(v);
  improve_queued();
  tour = tour_;
}

// Turns three parts A B C that follow each other to C B A, which no single exchange undoes.
void ArcSearch::kick() {
  const int longest = std::clamp((count_ - 2) / 3, 1, kArcTours.longest_kick);
  const int start = random_.below(count_);
  int sizes[3];
  int total = 0;
  for (int& size : sizes) {
    size = 1 + random_.below(longest);
    total += size;
  }
  const auto at = [&](int k) { return (start + k) % count_; };
  moved_.resize(total);
  for (int k = 0; k < total; k++) {
    const int behind = k < sizes[0]              ? k + sizes[1] + sizes[2]
                       : k < sizes[0] + sizes[1] ? k - sizes[0] + sizes[2]
                                                 : k - sizes[0] - sizes[1];
    moved_[behind] = tour_[at(k)];
  }
  for (const int k : {count_ - 1, 0, sizes[0] - 1, sizes[0], sizes[0] + sizes[1] - 1, sizes[0] + sizes[1],
                      total - 1, total}) {
    queue(tour_[at(k)]);
  }
  for (int k = 0; k < total; k++) {
    const int place = at(k);
    tour_[place] = moved_[k];
    place_[moved_[k]] = place;
  }
  length_ = length_of(costs_, tour_);
}

Tour ArcSearch::kicked(const Tour& start, int patience, const std::function<bool()>& stop) {
  Tour best = start;
  improve(best);
  Weight length = length_of(costs_, best);
  for (int stall = 0; count_ >= kFewest && stall < patience; stall++) {
    if (stall % 64 == 0 && stop()) break;
    kick();
    improve_queued();
    if (length_ > length) {
      take(best);
    } else {
      if (length_ < length) stall = 0;
      length = length_;
      best = tour_;
    }
  }
  return best;
}
}  // namespace certify
