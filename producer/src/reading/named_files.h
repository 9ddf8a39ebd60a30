// The instance and the solution that a command line names, and what is said where they are of other kinds.
#pragma once
#include <string>

#include "reading/canonical.h"
#include "running/command_line.h"

namespace certify {
// Throws Refusal, with the TYPE of each named file, unless the instance is of TYPE TSP or ATSP, with three
// nodes or more. `kinds` are those that the program takes.
void refuse_other_kinds(const std::string& tsp, const Canonical& instance, const CommonOptions& files,
                        const std::string& kinds);
// The named tour or routes as a file of TYPE TOUR, from any form that `tsp solution` reads. Where the
// instance can't be read twice, as a pipe can't, the solution has to be of TYPE TOUR itself. Throws Refusal
// where it can't be read.
Canonical read_solution(const std::string& tsp, const CommonOptions& files);
}  // namespace certify
