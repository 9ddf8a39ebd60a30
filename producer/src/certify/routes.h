// Certificates of a CVRP, and plans of its routes.
#pragma once
#include <memory>

#include "certify/options.h"
#include "reading/canonical.h"

namespace certify::routes {
// Writes the files. The exit status.
int certify_routes(const Options& options, const std::string& tsp, std::unique_ptr<Canonical> file);
}  // namespace certify::routes
