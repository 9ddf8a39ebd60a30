// A certificate as it is in a file of TYPE BRANCHES: families, and a tree of branches and leaves.
#pragma once
#include <map>
#include <string>
#include <variant>
#include <vector>

#include "tree/exact_bound.h"

namespace certify {
// A branch on a family, of a CVRP: first the solutions that cross it at most 2 t times, then those that cross
// it more often.
struct FamilyBranch {
  int family;
  int t;
};
// A branch on a pair or on a family, or a leaf with its numbers.
using TreeStep = std::variant<Pair, FamilyBranch, Numbers>;

// A subset row of a CVRP: a set, and the further nodes that keep it.
struct KeptRow {
  NodeSet set, further;
};
inline constexpr int kFirstRow = 10000;  // the multipliers of rows are numbered from here on

struct Certificate {
  int nodes = 0;
  Weight scale = 1;
  std::map<std::string, std::string> notes{};    // of lines COMMENT : tsp-certify KEY VALUE
  std::vector<std::vector<NodeSet>> families{};  // as many as multipliers name, and more
  std::vector<TreeStep> steps{};                 // from the root on, a branch before its cases
  Weight load_unit = 1;                          // of a CVRP
  std::map<int, NodeSet> memory{};               // of a CVRP: the nodes that each remembers
  std::vector<KeptRow> rows{};
};

// How much a certificate has of all that docs/format.md limits.
struct Extent {
  std::size_t families = 0, nodes = 0;  // those of all sets of families
  std::size_t differences = 0, branches = 0;
};
inline constexpr Extent kLimits{10000, 1000000, 10000000, 1000000};  // of a file

// The case of a branch on a family that a leaf is in.
struct FamilyDecision {
  FamilyBranch branch;
  bool first;
};

// A leaf with what is decided above it.
struct OpenLeaf {
  std::vector<Decision> decisions;
  std::vector<FamilyDecision> family_decisions;
  Numbers numbers;  // the multipliers by the place of a family
};

// Throws Refusal where the file isn't of TYPE BRANCHES, or a step is on a family that isn't there.
Certificate read_certificate(const std::string& tsp, const std::string& path);
// Divides by a common divisor. With `all` the families that no leaf names follow the others, up to half of
// the limits; else they are left out.
void write_certificate(const std::string& path, const Certificate& certificate, bool all,
                       const Extent& limits = kLimits);
// What the file has without the families that no leaf names.
Extent extent_of(const Certificate& certificate);
bool is_within(const Extent& extent, const Extent& limits);
std::size_t nodes_of(const std::vector<NodeSet>& family);
// How many numbers differ. Without potentials all numbers are 0.
std::size_t differences(const Numbers& numbers, const Numbers& before);
// Adds a family of a file to a pool, as what it is: a set, a comb or a family. The number of the cut.
int add_family(CutPool& pool, const std::vector<NodeSet>& family, int nodes);
// The leaf of a number. Throws Refusal where there is none.
OpenLeaf leaf_of(const Certificate& certificate, int number);
// The value of a note, or another one where there is no such note.
double note_of(const Certificate& certificate, const std::string& key, double otherwise);
bool has_family_branches(const Certificate& certificate);
// Whether leaves are open, by a note of whoever made it.
inline bool is_open(const Certificate& certificate) { return certificate.notes.contains("open"); }
}  // namespace certify
