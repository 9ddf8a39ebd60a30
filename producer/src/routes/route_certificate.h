// Certificates of a CVRP as trees over sets of customers.
//
// Nodes have the file's numbers in a certificate, and those of the instance here.
#pragma once
#include "routes/walk_bound.h"
#include "tree/certificate.h"

namespace certify::routes {
class RouteCertificates {
 public:
  explicit RouteCertificates(const CvrpInstance& instance);
  // Throws Refusal where a family isn't one set of customers, or a branch is on a pair.
  void check(const Certificate& certificate, const std::string& path) const;
  NodeSet customers_of(const Certificate& certificate, int family) const;
  // The numbers of a leaf, times a factor.
  LeafNumbers numbers_of(const Certificate& certificate, const Numbers& numbers, Weight factor) const;
  std::vector<Limit> limits_of(const Certificate& certificate, const OpenLeaf& leaf) const;

 private:
  const CvrpInstance& instance_;
  std::vector<int> inward_;  // the number here of each of the file's nodes, from 0 on
};

// A certificate that is made step by step.
class CertificateMaker {
 public:
  CertificateMaker(const CvrpInstance& instance, Weight scale, Weight load_unit);
  void add_branch(const NodeSet& set, int t);
  void add_leaf(const LeafNumbers& numbers);
  // A set that no step has to name.
  void add_set(const NodeSet& set) { family_of(set); }
  Certificate& certificate() { return certificate_; }

 private:
  int family_of(const NodeSet& set);

  const CvrpInstance& instance_;
  Certificate certificate_;
  std::map<NodeSet, int> families_;
};
}  // namespace certify::routes
