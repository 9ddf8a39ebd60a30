#include "certify/report.h"

#include <algorithm>
#include <filesystem>
#include <iomanip>
#include <iostream>

#include "reading/tsp_program.h"
#include "running/clock.h"
#include "running/refusal.h"

namespace certify {
namespace {
std::string limits_of(const Extent& limits) {
  return std::to_string(limits.families) + " families with " + std::to_string(limits.nodes) + " nodes, " +
         std::to_string(limits.differences) + " differences, " + std::to_string(limits.branches) +
         " branches";
}

// Writes a tour where it is shorter than the named one and --tour-out is missing: beside the certificate, as
// CERTIFICATE.tour, unless there is such a file. Where it can't be written, a line says why, and the run has
// no fault: no word asks for it. That of a part isn't written: names of parts are often a pattern.
void keep_shorter(const Options& options, const std::function<void(const std::string& path)>& write,
                  Ending& ending) {
  if (!ending.given || ending.length >= *ending.given || options.tour_out || options.leaf) return;
  const std::string path = options.certificate + ".tour";
  std::error_code error;
  if (!std::filesystem::is_regular_file(options.certificate, error)) return;
  if (std::filesystem::exists(std::filesystem::symlink_status(path, error))) {
    std::cerr << "tsp-certify: " << path << ": this file is there, and isn't overwritten\n";
    return;
  }
  try {
    write(path);
    ending.kept = path;
  } catch (const Refusal& fault) {
    std::cerr << "tsp-certify: " << fault.what() << "\n";
  }
}

std::string judging_command(const Options& options, const Ending& ending) {
  std::vector<std::string> words{call_of_tsp(options.tsp), "check", options.instance};
  if (ending.kept || options.tour_out) {
    words.push_back(ending.kept ? *ending.kept : *options.tour_out);
  } else if (options.tour) {
    words.insert(words.end(), {*options.tour, "--form", "auto"});
  } else {
    words.emplace_back("TOUR");
  }
  words.insert(words.end(), {"--branches", options.certificate});
  return command_of(words);
}

void report(const Options& options, const Ending& ending) {
  const Weight bound = std::min(ending.bound, ending.length);
  std::cerr << "tsp-certify: length " << ending.length << ", bound " << bound << " as reckoned here, leaves "
            << ending.leaves << ", seconds " << std::fixed << std::setprecision(1) << Clock::now()
            << ", processor seconds " << Clock::processor() << "\n";
  if (bound < ending.length) std::cerr << "tsp-certify: a gap of " << ending.length - bound << " is left\n";
  if (ending.limited) {
    std::cerr << "tsp-certify: leaves are left open, since a file has at most " << limits_of(options.limits)
              << "\n";
  }
  if (ending.given && ending.length < *ending.given) {
    std::cerr << "tsp-certify: a shorter tour than the named one was found"
              << (ending.kept        ? ": " + *ending.kept
                  : options.tour_out ? ""
                                     : "; --tour-out says where it goes")
              << "\n";
  }
  if (ending.rounded_away) {
    std::cerr
        << "tsp-certify: distances are rounded to whole numbers, and each of this tour is 0 or 1: multiply "
           "the coordinates by a power of ten, and say so where the length is published\n";
  }
  if (options.leaf) {
    std::cerr << "tsp-certify: this is a part: tsp-certify " << options.instance << " --tree "
              << *options.tree << " --join PART.. -o CERTIFICATE puts parts together\n";
    return;
  }
  std::cerr << "tsp-certify: this decides: " << judging_command(options, ending) << "\n";
}
}  // namespace

void report_left_out(const Options& options, const std::vector<std::size_t>& parts) {
  if (parts.empty()) return;
  std::cerr << "tsp-certify: left out, since a file has at most " << limits_of(options.limits) << ":";
  for (const std::size_t part : parts) std::cerr << " " << options.parts[part];
  std::cerr << "\ntsp-certify: their leaves are open, and this goes on with them: tsp-certify "
            << options.instance << " TOUR --tree " << options.certificate << " -o CERTIFICATE\n";
}

void warn_of_lost_tour(const Options& options) {
  if (!options.leaf || !options.tour || options.tour_out) return;
  std::cerr << "tsp-certify: a shorter tour that a part finds is kept by --tour-out alone\n";
}

int end_run(const Options& options, const Files& files, Progress& progress, Ending ending) {
  write_certificate(options.certificate, files.certificate, options.split > 0, options.limits);
  if (options.tour_out) files.write_tour(*options.tour_out);
  progress.end();
  if (options.split > 0) {
    for (const int leaf : files.open_leaves) std::cout << leaf << "\n";
  }
  keep_shorter(options, files.write_tour, ending);
  report(options, ending);
  return Clock::signal() ? 128 + *Clock::signal() : 0;
}
}  // namespace certify
