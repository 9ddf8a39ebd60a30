#include "potentials/node_potentials.h"

#include <algorithm>
#include <cmath>
#include <cstdlib>
#include <numeric>
#include <sstream>

#include "running/writing.h"

namespace potentials {
namespace {
constexpr Weight kFinest = 1000000;               // the limits of the format: of a scale,
constexpr double kMostNumber = 1000000000000000;  // and of a number

void write_section(std::ostream& text, const char* name, const std::vector<Weight>& numbers) {
  text << name << "_POTENTIAL_SECTION\n";
  for (std::size_t k = 0; k < numbers.size(); k++) text << k + 1 << ' ' << numbers[k] << '\n';
}

// The finest power of ten whose numbers and multipliers keep the limits.
Weight finest_scale(const Problem& problem, const std::vector<double>& numbers) {
  const auto [least, most] = std::minmax_element(numbers.begin(), numbers.end());
  double largest = std::max(std::abs(*least), std::abs(*most));
  for (const auto& [a, b] : problem.fixed()) {
    largest = std::max(largest, problem.cost(a, b) - problem.base() + 2 * (*most - *least));
  }
  Weight scale = kFinest;
  while (scale > 1 && (largest + 1) * static_cast<double>(scale) >= kMostNumber) scale /= 10;
  return scale;
}
}  // namespace

NodePotentials rounded(const Problem& problem, std::vector<double> numbers) {
  const double mean = std::accumulate(numbers.begin(), numbers.end(), 0.0) / problem.nodes();
  for (double& number : numbers) number -= mean;
  NodePotentials result;
  result.scale = finest_scale(problem, numbers);
  result.numbers.resize(numbers.size());
  for (int i = 0; i < problem.nodes(); i++) {
    const double number =
        std::clamp(numbers[i] * static_cast<double>(result.scale), -kMostNumber, kMostNumber);
    result.numbers[problem.original()[i]] = std::llround(number);
  }
  const Weight least = *std::min_element(result.numbers.begin(), result.numbers.end());
  for (const auto& [i, j] : problem.fixed()) {
    const int a = problem.original()[i];
    const int b = problem.original()[j];
    const Weight above = std::llround(problem.cost(i, j) - problem.base()) * result.scale;
    result.multipliers.push_back({a, b, above + result.numbers[a] + result.numbers[b] - 2 * least + 1});
  }
  return result;
}

Weight bound_of(const Problem& problem, const NodePotentials& potentials, const std::vector<Edge>& edges) {
  std::vector<double> numbers;
  std::vector<Weight> whole;
  certify::Value sum = 0;
  for (const int node : problem.original()) {
    whole.push_back(potentials.numbers[node]);
    numbers.push_back(static_cast<double>(whole.back()) / static_cast<double>(potentials.scale));
    sum -= 2 * static_cast<certify::Value>(whole.back());
  }
  sum += whole_sum(problem, exact_tree(problem, numbers, edges), whole, potentials.scale);
  return certify::rounded_up(sum, potentials.scale);
}

void write_potentials(const std::string& path, const NodePotentials& potentials) {
  std::ostringstream text;
  text << "TYPE : POTENTIALS\nDIMENSION : " << potentials.numbers.size() << "\nSCALE : " << potentials.scale
       << '\n';
  write_section(text, "NODE", potentials.numbers);
  if (!potentials.multipliers.empty()) {
    text << "FIXED_EDGE_POTENTIAL_SECTION\n";
    for (const auto& [a, b, number] : potentials.multipliers) {
      text << a + 1 << ' ' << b + 1 << ' ' << number << '\n';
    }
    text << "-1\n";
  }
  text << "EOF\n";
  certify::write_text(path, text.str());
}

void write_duals(const std::string& path, const std::vector<Weight>& leaving,
                 const std::vector<Weight>& entering) {
  std::ostringstream text;
  text << "TYPE : POTENTIALS\nDIMENSION : " << leaving.size() << '\n';
  write_section(text, "ROW", leaving);
  write_section(text, "COLUMN", entering);
  text << "EOF\n";
  certify::write_text(path, text.str());
}
}  // namespace potentials
