// Each leaf of a certificate with a gap can be gone on with elsewhere, and what comes of it takes the leaf's
// place.
#pragma once
#include <string>
#include <vector>

#include "tree/certificate.h"

namespace certify {
// A tree with parts in the places of leaves, and the numbers of those that are left out.
struct Joined {
  Certificate whole;
  std::vector<std::size_t> left_out{};
};
// Each part's notes say of which leaf it is, and of which tree. Throws Refusal where it is of another one.
// Where all parts are too much for a file, the largest are left out, and their leaves stay as they are.
Joined joined(const Certificate& tree, const std::vector<Certificate>& parts, const Extent& limits = kLimits);
// By what a tree's parts name it: a sum over all that its file says.
std::string identity_of(const Certificate& certificate);
}  // namespace certify
