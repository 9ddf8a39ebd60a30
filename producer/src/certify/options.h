// The words of the command line.
#pragma once
#include <optional>
#include <string>
#include <variant>
#include <vector>

#include "graphs/tour.h"
#include "running/clock.h"
#include "running/command_line.h"
#include "running/parameters.h"
#include "tree/certificate.h"

namespace certify {
struct Options : CommonOptions {
  std::string certificate;
  TimeLimit limit{.seconds = 300};
  std::optional<Weight> upper;
  bool families = true;
  bool memory = false;                // runs with a memory in place of walks, of a CVRP
  bool sparse = false;                // as instances of more nodes, without a matrix
  int threads = 0;                    // 0 for one by processor
  int window = kTree.window;          // cases that are begun and not ended
  bool short_file = false;            // linear programs find numbers of leaves near each other
  std::size_t split = 0;              // ends where as many cases are open
  std::optional<std::string> tree{};  // a certificate that is gone on with
  std::optional<int> leaf{};          // of it alone
  std::vector<std::string> parts{};   // that are joined with it
  Extent limits = kLimits;            // of the certificate
  std::optional<std::size_t> states;  // of a leaf by runs
};

// Throws Refusal where the words are wrong, or where a file that is written is one that is read.
std::variant<Options, Help> parse_options(int count, const char* const* words);
}  // namespace certify
