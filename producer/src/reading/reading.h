// Reads an instance of TYPE TSP through `tsp convert`.
#pragma once
#include <memory>
#include <string>

#include "points/problem.h"
#include "reading/canonical.h"

namespace potentials {
std::unique_ptr<Problem> read_problem(const std::string& tsp, const std::string& path,
                                      const certify::Canonical& file);
}  // namespace potentials
