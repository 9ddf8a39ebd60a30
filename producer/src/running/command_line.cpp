#include "running/command_line.h"

#include <CLI/CLI.hpp>
#include <cmath>
#include <exception>
#include <iostream>
#include <new>

#include "running/refusal.h"

namespace certify {
namespace {
// The number of a word, or nothing where it has none.
std::optional<double> number_of(const std::string& word) {
  double number = 0;
  if (!CLI::detail::lexical_cast(word, number) || !std::isfinite(number)) return std::nullopt;
  return number;
}
}  // namespace

void declare_files(CLI::App& app, CommonOptions& options, const char* why) {
  app.set_help_flag("-h,--help", "print this text");
  app.add_option("INSTANCE", options.instance, "a file of TYPE TSP or ATSP")->required();
  app.add_option("TOUR", options.tour, why);
}

void declare_common(CLI::App& app, CommonOptions& options) {
  app.add_option("--tour-out", options.tour_out, "where the shortest tour that was found is written")
      ->type_name("TOUR");
  app.add_option("--seed", options.seed, "the seed of all random choices")
      ->type_name("N")
      ->capture_default_str();
  app.add_option(
         "--tsp", options.tsp,
         "the program tsp: a path, or a name on PATH. Without this option, tsp is looked for beside this "
         "program, on PATH, and in the two folders above")
      ->type_name("PROGRAM");
  app.add_option("--log", options.log, "where each event is written as a line of JSON")->type_name("FILE");
}

CLI::Option* declare_limit(CLI::App& app, TimeLimit& limit, const char* seconds, const char* cpu_seconds) {
  CLI::Option* const by_clock = app.add_option("--seconds", limit.seconds, seconds)->type_name("S");
  app.add_option_function<double>(
         "--cpu-seconds",
         [&limit](double most) {
           limit = {most, true};
         },
         cpu_seconds)
      ->type_name("S")
      ->check(need_positive, "POSITIVE")
      ->excludes(by_clock);
  return by_clock;
}

std::string need_positive(const std::string& word) {
  const std::optional<double> number = number_of(word);
  return number && *number > 0 ? "" : word + " isn't a number above 0";
}

std::string need_nonnegative(const std::string& word) {
  const std::optional<double> number = number_of(word);
  return number && *number >= 0 ? "" : word + " isn't a number from 0 on";
}

std::optional<Help> take_words(CLI::App& app, int count, const char* const* words) {
  try {
    app.parse(count, words);
  } catch (const CLI::CallForHelp&) {
    return Help{app.help()};
  } catch (const CLI::ParseError& fault) {
    throw Refusal(std::string(fault.what()) + "; --help lists all options");
  }
  return std::nullopt;
}

std::vector<std::string> files_read(const CommonOptions& options) {
  std::vector<std::string> files{options.instance};
  if (options.tour) files.push_back(*options.tour);
  return files;
}

int ended(std::string_view program, const std::function<int()>& run) {
  try {
    return run();
  } catch (const std::bad_alloc&) {
    std::cerr << program << ": out of memory\n";
  } catch (const std::exception& fault) {
    std::cerr << program << ": " << fault.what() << "\n";
  }
  return 2;
}
}  // namespace certify
