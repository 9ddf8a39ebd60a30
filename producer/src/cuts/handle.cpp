#include "cuts/handle.h"

namespace certify {
void Handle::flip(int node) {
  double change = 0;
  for (const Edge& edge : graph_[node]) change += inside_[edge.to] ? -edge.value : edge.value;
  if (inside_[node]) {
    inside_[node] = 0;
    const int place = where_[node];
    nodes_[place] = nodes_.back();
    where_[nodes_[place]] = place;
    nodes_.pop_back();
    crossings_ -= change;
    hash_ -= pool_.key_of(node);
  } else {
    inside_[node] = 1;
    where_[node] = static_cast<int>(nodes_.size());
    nodes_.push_back(node);
    crossings_ += change;
    hash_ += pool_.key_of(node);
  }
}

void Handle::clear() {
  for (const int v : nodes_) inside_[v] = 0;
  nodes_.clear();
  crossings_ = 0;
  hash_ = 0;
}

void Handle::set(const NodeSet& nodes) {
  clear();
  for (const int v : nodes) {
    if (!has(v)) flip(v);
  }
}
}  // namespace certify
