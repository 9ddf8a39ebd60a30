#include "potentials/options.h"

#include <CLI/CLI.hpp>

#include "reading/tsp_program.h"
#include "running/writing.h"

namespace potentials {
namespace {
// What --help ends with.
std::string footer() {
  const std::string tsp = certify::name_of_tsp();
  return "The potentials aren't proved here. These commands judge them:\n  " + tsp +
         " bound INSTANCE --potentials POTENTIALS\n  " + tsp +
         " check INSTANCE TOUR --potentials POTENTIALS\n\n"
         "Exit status: 0 files written, 2 something was wrong, 130 files written after SIGINT, 143 after "
         "SIGTERM";
}

void declare(CLI::App& app, Options& options) {
  certify::declare_files(
      app, options,
      "a tour in any form that tsp solution reads; its gap is printed, and --tour-out begins with it");
  app.add_option("-o", options.potentials, "where the potentials are written")
      ->required()
      ->type_name("POTENTIALS");
  app.add_option("--steps", options.steps, "steps of the ascent (400)")
      ->type_name("K")
      ->check(CLI::Range(1, 10000000));
  app.add_option("--kicks", options.kicks, "kicks of the search for a tour (5 for each node)")
      ->type_name("K")
      ->check(CLI::Range(0L, 100000000000L));
  certify::declare_limit(
      app, options.limit,
      "seconds to run by the clock; the first steps and kicks are timed to see how many fit",
      "processor seconds, instead of --seconds")
      ->check(certify::need_positive, "POSITIVE");
  certify::declare_common(app, options);
  app.footer(footer());
}
}  // namespace

std::variant<Options, Help> parse_options(int count, const char* const* words) {
  Options options;
  CLI::App app("Makes potentials for a TSP, or duals for an ATSP, and a tour for a TSP", "tsp-potentials");
  declare(app, options);
  if (const std::optional<Help> help = certify::take_words(app, count, words)) return *help;
  const std::vector<std::optional<std::string>> written{options.potentials, options.tour_out, options.log};
  certify::refuse_overwriting(certify::files_read(options), written);
  certify::refuse_unwritable(written);
  return options;
}
}  // namespace potentials
