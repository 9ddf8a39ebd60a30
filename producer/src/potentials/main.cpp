// tsp-potentials: from an instance to potentials, which bound all its tours, and to a tour.
//
// Nothing here is proved, and nothing has to be trusted: `tsp bound` decides what the potentials are worth.
#include <algorithm>
#include <cmath>
#include <filesystem>
#include <iomanip>
#include <iostream>
#include <memory>
#include <sstream>
#include <utility>

#include "potentials/ascent.h"
#include "potentials/node_potentials.h"
#include "potentials/options.h"
#include "reading/instance.h"
#include "reading/named_files.h"
#include "reading/reading.h"
#include "reading/tsp_program.h"
#include "running/clock.h"
#include "running/progress.h"
#include "running/refusal.h"
#include "running/writing.h"
#include "tours/assignment.h"
#include "tours/tours.h"

namespace potentials {
namespace {
using certify::Canonical;
using certify::Clock;
using certify::Progress;
using certify::Refusal;

constexpr int kSteps = 400;
constexpr int kLeastSteps = 20, kMostSteps = 20000;  // where they are chosen by the time
constexpr long kKicksOfNode = 5;
constexpr double kPartForSteps = 0.4;  // of the time, where a tour is looked for too
constexpr int kEvents = 20;            // of an ascent in the log
constexpr double kLogFirst = 0.1,
                 kLogEach = 0.1;  // seconds, and the part of those of the search, between its events

// What was found, and how.
struct Found {
  Weight bound = 0;  // by the program's own reckoning
  std::optional<Weight> length;
  int steps = 0;
  long kicks = 0;
};

class Run {
 public:
  Run(const Options& options, const Problem& problem, std::optional<Tour> given, Progress& progress)
      : options_(options), problem_(problem), tour_(std::move(given)), progress_(progress) {
    if (!tour_ && options.tour_out) tour_ = first_tour(problem);
  }

  Found search() {
    Ascent ascent(problem_, options_.limit.of_processors);
    const std::vector<double> numbers = climb(ascent);
    const NodePotentials whole = rounded(problem_, numbers);
    found_.bound = bound_of(problem_, whole, ascent.edges());
    if (options_.tour_out && !Clock::signal()) shorten_tour(numbers, ascent);
    write_potentials(options_.potentials, whole);
    if (options_.tour_out) certify::write_tour(*options_.tour_out, problem_.outward(*tour_));
    found_.length = length();
    return found_;
  }

 private:
  // Seconds since the program's start, by the clock of the limit.
  double time() const { return Clock::since_start(options_.limit); }

  std::optional<Weight> length() const {
    return tour_ ? std::optional(std::llround(problem_.length(*tour_))) : std::nullopt;
  }

  int steps_for(Ascent& ascent) const {
    if (options_.steps || options_.limit.seconds == 0) return options_.steps.value_or(kSteps);
    const double part = options_.tour_out ? kPartForSteps : 1;
    const double left = part * options_.limit.seconds - time();
    return static_cast<int>(std::clamp<double>(ascent.steps_in(left), kLeastSteps, kMostSteps));
  }

  std::vector<double> climb(Ascent& ascent) {
    const int steps = steps_for(ascent);
    return ascent.run(steps, [&](int step, double bound) {
      found_.steps = step;
      const auto whole = static_cast<Weight>(std::ceil(bound));
      if (step == 1 || step == steps || step * kEvents / steps != (step - 1) * kEvents / steps) {
        progress_.log("steps", length(), whole, R"("steps": )" + std::to_string(step));
      }
      std::ostringstream line;
      line << "seconds " << static_cast<int>(time()) << " step " << step << " of " << steps << " bound "
           << whole;
      progress_.show(line.str());
      return !Clock::signal();
    });
  }

  void shorten_tour(const std::vector<double>& numbers, const Ascent& ascent) {
    TourSearch search;
    search.seed = options_.seed;
    search.named = options_.tour.has_value();
    search.kicks = options_.kicks;
    if (!options_.kicks && options_.limit.seconds == 0) search.kicks = kKicksOfNode * problem_.nodes();
    search.limit = {options_.limit.seconds - time(), options_.limit.of_processors};
    const Weight before = *length();
    const double begin = time();
    double logged = begin;
    search.watch = [&](long kicks, double gain) {
      const Weight now = before - std::llround(gain);
      if (time() - logged > kLogEach * (logged - begin) + kLogFirst) {
        logged = time();
        progress_.log("tour", now, found_.bound, R"("kicks": )" + std::to_string(kicks));
      }
      std::ostringstream line;
      line << "seconds " << static_cast<int>(time()) << " kicks " << kicks << " length " << now << " bound "
           << found_.bound;
      progress_.show(line.str());
      return !Clock::signal();
    };
    Shortened shortened = shorten(problem_, *tour_, numbers, ascent.support(), search);
    found_.kicks = shortened.kicks;
    if (problem_.length(shortened.tour) < problem_.length(*tour_)) tour_ = std::move(shortened.tour);
    progress_.log("tour", length(), found_.bound, R"("kicks": )" + std::to_string(found_.kicks));
  }

  const Options& options_;
  const Problem& problem_;
  std::optional<Tour> tour_;
  Progress& progress_;
  Found found_;
};

// The number behind a word in the report of the proved program.
std::optional<Weight> number_in(const std::string& report, const std::string& word) {
  std::istringstream lines(report);
  for (std::string line; std::getline(lines, line);) {
    if (line.rfind(word + " ", 0) == 0) return std::stoll(line.substr(word.size() + 1));
  }
  return std::nullopt;
}

// The words that judge the potentials: the verb, the files, and how the named tour is read.
struct Judging {
  std::string verb = "bound", tour{};
  std::vector<std::string> form{};

  std::vector<std::string> words(const Options& options) const {
    std::vector<std::string> all{verb, "--potentials", options.potentials};
    all.insert(all.end(), form.begin(), form.end());
    all.insert(all.end(), {"--", options.instance});
    if (!tour.empty()) all.push_back(tour);
    return all;
  }
  std::string line(const Options& options) const {
    std::vector<std::string> told{certify::call_of_tsp(options.tsp), verb, options.instance};
    if (!tour.empty()) told.push_back(tour);
    told.insert(told.end(), form.begin(), form.end());
    told.insert(told.end(), {"--potentials", options.potentials});
    return certify::command_of(told);
  }
};

Judging judging(const Options& options) {
  if (options.tour_out) return {"check", *options.tour_out};
  if (options.tour) return {"check", *options.tour, {"--form", "auto"}};
  return {};
}

// Tells the length and the bound as the proved program prints them.
void report(const Options& options, const std::string& tsp, Found found, Progress& progress) {
  std::error_code error;
  const bool readable = std::filesystem::is_regular_file(options.potentials, error) &&
                        (!options.tour_out || std::filesystem::is_regular_file(*options.tour_out, error));
  const Judging judge = judging(options);
  const std::string said = readable ? certify::report_of(tsp, judge.words(options)) : "";
  const std::optional<Weight> bound = number_in(said, "bound");
  if (const std::optional<Weight> length = number_in(said, "length")) found.length = length;
  std::ostringstream line;
  line << "tsp-potentials: ";
  if (found.steps > 0) line << "steps " << found.steps << ", ";
  if (options.tour_out) line << "kicks " << found.kicks << ", ";
  line << "bound " << bound.value_or(found.bound) << (bound ? "" : " as reckoned here");
  if (found.length) {
    const Weight gap = std::max(Weight{0}, *found.length - bound.value_or(found.bound));
    line << ", length " << *found.length << ", gap " << std::fixed << std::setprecision(3)
         << 100 * static_cast<double>(gap) / static_cast<double>(std::max(Weight{1}, std::abs(*found.length)))
         << " %";
  }
  line << ", seconds " << std::fixed << std::setprecision(1) << Clock::now() << ", processor seconds "
       << Clock::processor() << "\n";
  progress.log("end", found.length, bound.value_or(found.bound),
               R"("steps": )" + std::to_string(found.steps));
  progress.end();
  std::cerr << line.str() << "tsp-potentials: this decides: " << judge.line(options) << "\n";
}

Found assign(const Options& options, const std::string& tsp, const Canonical& file) {
  if (options.tour_out)
    throw Refusal("tours of an ATSP: tsp-certify finds them, and --tour-out is for TYPE TSP");
  const certify::Instance instance = certify::read_instance(tsp, options.instance, file);
  Found found;
  if (options.tour) {
    found.length = certify::length_of(instance.weights, certify::read_tour(tsp, options, instance));
  }
  const certify::Assignment assignment = certify::cheapest_assignment(instance.weights);
  for (const Weight number : assignment.leaving) found.bound += number;
  for (const Weight number : assignment.entering) found.bound += number;
  write_duals(options.potentials, assignment.leaving, assignment.entering);
  return found;
}

Found ascend(const Options& options, const std::string& tsp, std::unique_ptr<Canonical> file,
             Progress& progress) {
  const std::unique_ptr<Problem> problem = read_problem(tsp, options.instance, *file);
  file.reset();  // the text of a matrix is large
  std::optional<Tour> given;
  if (options.tour) {
    given = problem->inward(certify::read_order(tsp, options, problem->nodes()));
    if (!problem->allows(*given)) throw Refusal(*options.tour + ": the tour doesn't use all fixed edges");
  }
  Clock::catch_signals();
  return Run(options, *problem, std::move(given), progress).search();
}

int run(const Options& options) {
  const std::string tsp = certify::find_tsp(options.tsp);
  auto file = std::make_unique<Canonical>(certify::canonical_text(tsp, options.instance, {}));
  certify::refuse_other_kinds(tsp, *file, options, "TSP or ATSP");
  Progress progress(options.log);
  const bool directed = file->value("TYPE") == "ATSP";
  const Found found =
      directed ? assign(options, tsp, *file) : ascend(options, tsp, std::move(file), progress);
  progress.clear();
  report(options, tsp, found, progress);
  return Clock::signal() ? 128 + *Clock::signal() : 0;
}
}  // namespace
}  // namespace potentials

int main(int count, char** words) {
  return certify::ended("tsp-potentials", [&] {
    const auto asked = potentials::parse_options(count, words);
    if (const auto* help = std::get_if<certify::Help>(&asked)) {
      std::cout << help->text;
      return 0;
    }
    return potentials::run(std::get<potentials::Options>(asked));
  });
}
