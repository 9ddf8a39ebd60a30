// The words of the command line of tsp-potentials.
#pragma once
#include <optional>
#include <string>
#include <variant>

#include "running/clock.h"
#include "running/command_line.h"

namespace potentials {
using certify::Help;

struct Options : certify::CommonOptions {
  std::string potentials;
  certify::TimeLimit limit;  // 0 for none
  std::optional<int> steps;
  std::optional<long> kicks;
};

// Throws Refusal where the words are wrong, or where a file that is written is one that is read.
std::variant<Options, Help> parse_options(int count, const char* const* words);
}  // namespace potentials
