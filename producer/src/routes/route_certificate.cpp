#include "routes/route_certificate.h"

#include <algorithm>

#include "running/refusal.h"

namespace certify::routes {
RouteCertificates::RouteCertificates(const CvrpInstance& instance)
    : instance_(instance), inward_(instance.nodes(), 0) {
  for (int v = 0; v < instance.nodes(); v++) inward_[instance.file_nodes[v] - 1] = v;
}

void RouteCertificates::check(const Certificate& certificate, const std::string& path) const {
  if (certificate.nodes != instance_.nodes()) throw Refusal(path + ": this is of another instance");
  for (const std::vector<NodeSet>& family : certificate.families) {
    const NodeSet& set = family.front();
    if (family.size() != 1 || std::any_of(set.begin(), set.end(), [&](int v) { return inward_[v] == 0; })) {
      throw Refusal(path + ": a family isn't one set of customers");
    }
  }
  for (const TreeStep& step : certificate.steps) {
    if (std::holds_alternative<Pair>(step)) throw Refusal(path + ": a branch is on a pair");
  }
}

NodeSet RouteCertificates::customers_of(const Certificate& certificate, int family) const {
  NodeSet set;
  for (const int v : certificate.families[family].front()) set.push_back(inward_[v]);
  std::sort(set.begin(), set.end());
  return set;
}

LeafNumbers RouteCertificates::numbers_of(const Certificate& certificate, const Numbers& numbers,
                                          Weight factor) const {
  LeafNumbers own{std::vector<Weight>(instance_.nodes(), 0), {}};
  for (int v = 0; v < instance_.nodes(); v++) own.potentials[inward_[v]] = numbers.potentials[v] * factor;
  for (const auto& [family, multiplier] : numbers.multipliers) {
    own.multipliers[customers_of(certificate, family)] += multiplier * factor;
  }
  return own;
}

std::vector<Limit> RouteCertificates::limits_of(const Certificate& certificate, const OpenLeaf& leaf) const {
  std::vector<Limit> limits;
  limits.reserve(leaf.family_decisions.size());
  for (const auto& [branch, first] : leaf.family_decisions) {
    limits.push_back({customers_of(certificate, branch.family), first, branch.t});
  }
  return limits;
}

CertificateMaker::CertificateMaker(const CvrpInstance& instance, Weight scale, Weight load_unit)
    : instance_(instance) {
  certificate_.nodes = instance.nodes();
  certificate_.scale = scale;
  certificate_.load_unit = load_unit;
}

int CertificateMaker::family_of(const NodeSet& set) {
  const auto [place, fresh] = families_.emplace(set, static_cast<int>(certificate_.families.size()));
  if (fresh) {
    NodeSet nodes;
    for (const int v : set) nodes.push_back(instance_.file_nodes[v] - 1);
    std::sort(nodes.begin(), nodes.end());
    certificate_.families.push_back({std::move(nodes)});
  }
  return place->second;
}

void CertificateMaker::add_branch(const NodeSet& set, int t) {
  certificate_.steps.emplace_back(FamilyBranch{family_of(set), t});
}

void CertificateMaker::add_leaf(const LeafNumbers& numbers) {
  Numbers leaf;
  leaf.potentials.assign(instance_.nodes(), 0);
  for (int v = 0; v < static_cast<int>(numbers.potentials.size()); v++) {
    leaf.potentials[instance_.file_nodes[v] - 1] = numbers.potentials[v];
  }
  for (const auto& [set, multiplier] : numbers.multipliers) {
    if (multiplier != 0) leaf.multipliers[family_of(set)] = multiplier;
  }
  certificate_.steps.emplace_back(std::move(leaf));
}
}  // namespace certify::routes
