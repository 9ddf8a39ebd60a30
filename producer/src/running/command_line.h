// What the command lines of both programs share.
#pragma once
#include <cstdint>
#include <functional>
#include <optional>
#include <string>
#include <string_view>
#include <vector>

#include "running/clock.h"

namespace CLI {
class App;
class Option;
}  // namespace CLI

namespace certify {
// The words that mean the same to both programs.
struct CommonOptions {
  std::string instance;
  std::optional<std::string> tour, tour_out, tsp, log;
  std::uint64_t seed = 1;
};

// What --help prints.
struct Help {
  std::string text;
};

// The files of the command line, before all others: the instance and the tour. `why` says what a tour is for.
void declare_files(CLI::App& app, CommonOptions& options, const char* why);
// --tour-out, --tsp, --seed and --log.
void declare_common(CLI::App& app, CommonOptions& options);
// --seconds, which it returns, and --cpu-seconds. The texts say what they are.
CLI::Option* declare_limit(CLI::App& app, TimeLimit& limit, const char* seconds, const char* cpu_seconds);
// Checks of an option's number, in place of CLI11's, which print the largest double in full: what is wrong
// with the word.
std::string need_positive(const std::string& word);
std::string need_nonnegative(const std::string& word);
// Takes the words. Throws Refusal where they are wrong.
std::optional<Help> take_words(CLI::App& app, int count, const char* const* words);
// The files that a run reads, but for those of other options.
std::vector<std::string> files_read(const CommonOptions& options);
// The exit status of a program. A fault is one line on standard error, and status 2.
int ended(std::string_view program, const std::function<int()>& run);
}  // namespace certify
