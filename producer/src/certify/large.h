// Certificates of one leaf for instances of points that have too many nodes for a matrix.
#pragma once
#include <memory>

#include "certify/options.h"
#include "reading/canonical.h"

namespace certify {
// Whether an instance goes this way: a TSP of more than 5,000 points, or any points where it is asked for.
bool is_large(const Options& options, const Canonical& file);
// Writes the files. The exit status.
int certify_large(const Options& options, const std::string& tsp, std::unique_ptr<Canonical> file);
}  // namespace certify
