#include "certify/options.h"

#include <CLI/CLI.hpp>
#include <utility>
#include <vector>

#include "reading/tsp_program.h"
#include "running/refusal.h"
#include "running/writing.h"

namespace certify {
namespace {
// What --help ends with.
std::string footer() {
  return "The certificate isn't proved here. This command judges it:\n  " + name_of_tsp() +
         " check INSTANCE TOUR --branches CERTIFICATE\n\n"
         "Exit status: 0 files written, 2 something was wrong, 130 files written after SIGINT, 143 after "
         "SIGTERM";
}

// The words by which machines share a tree.
void declare_trees(CLI::App& app, Options& options) {
  CLI::Option* const split =
      app.add_option("--split", options.split,
                     "stop as soon as K cases are open, and print the numbers of their leaves")
          ->type_name("K")
          ->check(need_positive, "POSITIVE");
  CLI::Option* const tree =
      app.add_option("--tree", options.tree, "go on with this certificate, which has a gap")
          ->type_name("CERTIFICATE");
  CLI::Option* const leaf =
      app.add_option("--leaf", options.leaf,
                     "go on with only this leaf of --tree, counted from 1; the certificate is then a part")
          ->type_name("N")
          ->check(need_positive, "POSITIVE")
          ->needs(tree);
  app.add_option("--join", options.parts, "replace leaves of --tree by these parts, and do nothing else")
      ->type_name("PART")
      ->needs(tree)
      ->excludes(leaf)
      ->excludes(split);
}

void declare(CLI::App& app, Options& options) {
  declare_files(app, options, "a tour or routes to begin with, in any form that tsp solution reads");
  app.get_option("INSTANCE")->description("a file of TYPE TSP, ATSP or CVRP");
  app.add_option("-o", options.certificate, "where the certificate is written")
      ->required()
      ->type_name("CERTIFICATE");
  declare_limit(app, options.limit, "seconds to run by the clock, 0 for no limit",
                "processor seconds of all threads together, instead of --seconds")
      ->check(need_nonnegative, "NONNEGATIVE")
      ->capture_default_str();
  app.add_option("--upper", options.upper, "stop when the bound reaches L")->type_name("L");
  app.add_flag_callback(
      "--no-families", [&options] { options.families = false; },
      "use only sets and combs as cuts, as for an ATSP");
  app.add_option("--threads", options.threads, "the largest number of threads, 0 for one on each processor")
      ->type_name("N")
      ->check(need_nonnegative, "NONNEGATIVE")
      ->capture_default_str();
  app.add_option("--window", options.window,
                 "the largest number of cases to work on at once; another number gives another tree")
      ->type_name("W")
      ->check(need_positive, "POSITIVE")
      ->capture_default_str();
  app.add_flag("--short-file", options.short_file,
               "shrink the certificate of a TSP; this may take longer than the search");
  app.add_flag("--memory", options.memory,
               "for a CVRP: q-routes that remember customers, and subset-row cuts");
  // of tests: an empty group is left out of the help
  app.add_flag("--sparse", options.sparse, "without a matrix, as more than 5,000 points")->group("");
  app.add_option_function<std::vector<std::size_t>>(
         "--limits",
         [&options](const auto& most) {
           options.limits = {most[0], most[1], most[2], most[3]};
         },
         "of families, their nodes, differences and branches, in place of those of a file")
      ->expected(4)
      ->group("");
  app.add_option("--states", options.states, "of a leaf by runs, in place of those that tsp keeps")
      ->group("");
  declare_common(app, options);
  declare_trees(app, options);
  app.footer(footer());
}
}  // namespace

std::variant<Options, Help> parse_options(int count, const char* const* words) {
  Options options;
  CLI::App app("Makes a branches file for a TSP, an ATSP or a CVRP, and a tour or routes if you name none",
               "tsp-certify");
  declare(app, options);
  if (const std::optional<Help> help = take_words(app, count, words)) return *help;
  if (!options.tour && !options.tour_out && !options.upper && options.parts.empty()) {
    throw Refusal("name a tour, or say by --tour-out where the one that is found goes");
  }
  std::vector<std::string> read = files_read(options);
  if (options.tree) read.push_back(*options.tree);
  read.insert(read.end(), options.parts.begin(), options.parts.end());
  const std::vector<std::optional<std::string>> written{options.certificate, options.tour_out, options.log};
  refuse_overwriting(std::move(read), written);
  refuse_unwritable(written);
  return options;
}
}  // namespace certify
