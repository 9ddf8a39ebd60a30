#include "reading/named_files.h"

#include <filesystem>
#include <sstream>

#include "reading/tsp_program.h"
#include "running/refusal.h"

namespace certify {
namespace {
constexpr const char* kSolution = "the solution has to be a tour or routes";

// Whether a file can be read twice. A pipe can't.
bool is_lasting(const std::string& path) {
  std::error_code error;
  return std::filesystem::is_regular_file(path, error);
}

// The TYPE of a file, or nothing where tsp doesn't read it or it can't be read again.
std::string type_of(const std::string& tsp, const std::string& path) {
  if (!is_lasting(path)) return "";
  const Output output = output_of({tsp, "convert", "--", path}, true);
  return output.well ? std::string(Canonical(output.text).value("TYPE")) : "";
}

std::string kind_told(const std::string& path, const std::string& type) {
  return path + (type.empty() ? " has no TYPE" : " is of TYPE " + type);
}

// Throws Refusal with the TYPE of the instance, that of the solution if its file is there, and what is
// needed.
[[noreturn]] void refuse_kinds(const CommonOptions& files, const std::string& instance,
                               const std::string& solution, const std::string& needed) {
  std::string told = "wrong kind: " + kind_told(files.instance, instance);
  if (files.tour && is_lasting(*files.tour)) told += ", and " + kind_told(*files.tour, solution);
  throw Refusal(told + "; " + needed);
}

// The lines of `tsp solution --explain` on a fault, as one line.
std::string fault_in(const std::string& text) {
  std::istringstream lines(text);
  std::string told;
  for (std::string line; std::getline(lines, line);) {
    const std::size_t begin = line.find_first_not_of(' ');
    if (begin == std::string::npos) continue;
    if (!told.empty()) told += told.back() == '.' ? " " : ": ";
    told += line.substr(begin);
  }
  const std::string solution = "file 1: ";
  return told.starts_with(solution) ? told.substr(solution.size()) : told;
}

// The canonical text of a file of TYPE TOUR.
std::string tour_text(const std::string& tsp, const std::string& path) {
  std::string text = canonical_text(tsp, path, {});
  const std::string type(Canonical(text).value("TYPE"));
  if (type != "TOUR") throw Refusal("wrong kind: " + kind_told(path, type) + "; " + kSolution);
  return text;
}
}  // namespace

void refuse_other_kinds(const std::string& tsp, const Canonical& instance, const CommonOptions& files,
                        const std::string& kinds) {
  const std::string kind(instance.value("TYPE"));
  if (kind != "TSP" && kind != "ATSP") {
    const std::string solution = files.tour ? type_of(tsp, *files.tour) : "";
    refuse_kinds(files, kind, solution, "the instance has to be of TYPE " + kinds);
  }
  if (instance.nodes() < 3) {
    throw Refusal(files.instance + ": there are no tours of fewer than three nodes");
  }
}

Canonical read_solution(const std::string& tsp, const CommonOptions& files) {
  const std::string& path = *files.tour;
  if (!is_lasting(files.instance)) return Canonical(tour_text(tsp, path));
  refuse_unreadable(path);
  const Output output = output_of({tsp, "solution", "--explain", "--of=" + files.instance, "--", path}, true);
  if (output.well) return Canonical(output.text);
  const std::string type = type_of(tsp, path);
  if (!type.empty() && type != "TOUR") {
    refuse_kinds(files, type_of(tsp, files.instance), type, kSolution);
  }
  throw Refusal(path + ": " + fault_in(output.text));
}
}  // namespace certify
