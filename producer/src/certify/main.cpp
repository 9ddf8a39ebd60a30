// tsp-certify: from an instance to a certificate of TYPE BRANCHES, and to a tour.
//
// Nothing here is proved, and nothing has to be trusted: `tsp check` decides what a certificate is worth.
#include <oneapi/tbb/global_control.h>
#include <oneapi/tbb/info.h>
#include <oneapi/tbb/task_arena.h>

#include <algorithm>
#include <iostream>
#include <memory>
#include <optional>
#include <utility>

#include "certify/first_tours.h"
#include "certify/large.h"
#include "certify/options.h"
#include "certify/report.h"
#include "certify/routes.h"
#include "reading/named_files.h"
#include "reading/reading.h"
#include "reading/tsp_program.h"
#include "running/refusal.h"
#include "running/writing.h"
#include "tree/joining.h"
#include "tree/search.h"

namespace certify {
namespace {
// The certificate that is gone on with, where one is named.
std::optional<Certificate> read_tree(const Options& options, const std::string& tsp,
                                     const Instance& instance) {
  if (!options.tree) return std::nullopt;
  Certificate tree = read_certificate(tsp, *options.tree);
  if (tree.nodes != instance.nodes() || has_family_branches(tree)) {
    throw Refusal(*options.tree + ": this is of another instance");
  }
  return tree;
}

int certify_instance(const Options& options) {
  const std::string tsp = find_tsp(options.tsp);
  auto file = std::make_unique<Canonical>(canonical_text(tsp, options.instance, {}));
  if (file->value("TYPE") == "CVRP") return routes::certify_routes(options, tsp, std::move(file));
  refuse_other_kinds(tsp, *file, options, "TSP, ATSP or CVRP");
  if (is_large(options, *file)) return certify_large(options, tsp, std::move(file));
  const Instance instance = read_instance(tsp, options.instance, *file);
  const Tour given = options.tour ? read_tour(tsp, options, instance) : Tour{};
  std::optional<Certificate> tree = read_tree(options, tsp, instance);
  warn_of_lost_tour(options);
  Progress progress(options.log);
  Clock::catch_signals();
  const Clock clock(options.limit);
  FirstTours first(options, instance, clock, progress);
  if (first.are_weighed()) first.weigh(*potentials::read_problem(tsp, options.instance, *file));
  file.reset();  // the text of a matrix is large
  Start start = first.find();
  if (!instance.allows(start.tour)) throw Refusal("no tour uses all fixed edges");
  if (!given.empty() && length_of(instance.weights, given) <= length_of(instance.weights, start.tour)) {
    start.tour = given;
  }
  start.tree = std::move(tree);
  Search search(instance, start, clock, progress,
                {options.window, options.split, options.limits, options.short_file});
  search.run();
  Ending ending{length_of(instance.weights, search.tour()), search.bound(), search.leaves()};
  if (!given.empty()) ending.given = length_of(instance.weights, given);
  ending.rounded_away = instance.rounded &&
                        is_rounded_away(search.tour(), [&](int i, int j) { return instance.weights(i, j); });
  ending.limited = search.is_limited();
  const auto write = [&](const std::string& path) { write_tour(path, search.tour()); };
  return end_run(options, {search.certificate(), search.open_leaves(), write}, progress, ending);
}

// Leaves whose parts are missing stay as they are, so that what is joined is always a certificate.
int join(const Options& options) {
  const std::string tsp = find_tsp(options.tsp);
  std::vector<Certificate> parts;
  for (const std::string& path : options.parts) parts.push_back(read_certificate(tsp, path));
  const Joined joined = certify::joined(read_certificate(tsp, *options.tree), parts, options.limits);
  write_certificate(options.certificate, joined.whole, is_open(joined.whole), options.limits);
  report_left_out(options, joined.left_out);
  return 0;
}

// All loops run in an arena of as many threads.
int run(const Options& options) {
  if (!options.parts.empty()) return join(options);
  const int threads = options.threads > 0 ? options.threads : oneapi::tbb::info::default_concurrency();
  const oneapi::tbb::global_control most(oneapi::tbb::global_control::max_allowed_parallelism,
                                         static_cast<std::size_t>(threads));
  oneapi::tbb::task_arena arena(threads);
  return arena.execute([&] { return certify_instance(options); });
}
}  // namespace
}  // namespace certify

int main(int count, char** words) {
  return certify::ended("tsp-certify", [&] {
    const auto asked = certify::parse_options(count, words);
    if (const auto* help = std::get_if<certify::Help>(&asked)) {
      std::cout << help->text;
      return 0;
    }
    return certify::run(std::get<certify::Options>(asked));
  });
}
