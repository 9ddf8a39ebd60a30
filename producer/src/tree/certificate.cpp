#include "tree/certificate.h"

#include <algorithm>
#include <cstdlib>
#include <numeric>
#include <sstream>

#include "cuts/families.h"
#include "reading/tsp_program.h"
#include "running/refusal.h"
#include "running/writing.h"

namespace certify {
namespace {
const std::string kNote = "COMMENT : tsp-certify ";

void read_families(std::istream& words, Certificate& certificate) {
  for (int v = 0; words >> v && v != -1;) {
    std::vector<NodeSet>& family = certificate.families.emplace_back();
    for (; v != -1; words >> v) {
      NodeSet& set = family.emplace_back();
      for (; v != -1; words >> v) set.push_back(v - 1);
    }
  }
}

// Differences become numbers.
void read_tree(std::istream& words, Certificate& certificate) {
  Numbers numbers;
  numbers.potentials.assign(certificate.nodes, 0);
  int open = 1;
  for (int first = 0; open > 0 && words >> first;) {
    if (first > 0) {
      int second = 0;
      words >> second;
      if (first > certificate.nodes) {
        certificate.steps.emplace_back(FamilyBranch{first - certificate.nodes - 1, second});
      } else {
        certificate.steps.emplace_back(Pair(first - 1, second - 1));
      }
      open++;
      continue;
    }
    Weight difference = 0;
    for (int index = 0; words >> index && index != -1;) {
      words >> difference;
      if (index <= certificate.nodes) {
        numbers.potentials[index - 1] += difference;
      } else {
        numbers.multipliers[index - certificate.nodes - 1] += difference;
      }
    }
    std::erase_if(numbers.multipliers, [](const auto& entry) { return entry.second == 0; });
    certificate.steps.emplace_back(numbers);
    open--;
  }
}

// Whether each family that a step is on is there.
bool has_all_families(const Certificate& certificate) {
  const int families = static_cast<int>(certificate.families.size());
  return std::all_of(certificate.steps.begin(), certificate.steps.end(), [&](const TreeStep& step) {
    if (const auto* branch = std::get_if<FamilyBranch>(&step)) return branch->family < families;
    const auto* numbers = std::get_if<Numbers>(&step);
    return numbers == nullptr || numbers->multipliers.empty() ||
           numbers->multipliers.rbegin()->first < families;
  });
}

std::vector<const Numbers*> leaves_of(const Certificate& certificate) {
  std::vector<const Numbers*> leaves;
  for (const TreeStep& step : certificate.steps) {
    if (const auto* numbers = std::get_if<Numbers>(&step)) leaves.push_back(numbers);
  }
  return leaves;
}

// The largest whole number that divides the scale and all numbers.
Weight common_divisor(const Certificate& certificate) {
  Weight divisor = certificate.scale;
  for (const Numbers* numbers : leaves_of(certificate)) {
    for (const Weight potential : numbers->potentials) divisor = std::gcd(divisor, potential);
    for (const auto& [cut, multiplier] : numbers->multipliers) divisor = std::gcd(divisor, multiplier);
  }
  return divisor;
}

// The families of branches and with multipliers, in the order of their first step, and their numbers from 0
// on.
std::map<int, int> number_families(const Certificate& certificate, std::vector<int>& order) {
  std::map<int, int> places;
  const auto add = [&](int family) {
    if (places.emplace(family, order.size()).second) order.push_back(family);
  };
  for (const TreeStep& step : certificate.steps) {
    if (const auto* branch = std::get_if<FamilyBranch>(&step)) add(branch->family);
    const auto* numbers = std::get_if<Numbers>(&step);
    if (numbers == nullptr) continue;
    for (const auto& [family, multiplier] : numbers->multipliers) {
      if (multiplier != 0 && family < kFirstRow) add(family);
    }
  }
  return places;
}

// Adds the other families. The other half of the limits is for those that are found later.
void add_others(const Certificate& certificate, const std::map<int, int>& places, const Extent& limits,
                std::vector<int>& order) {
  std::size_t nodes = 0;
  for (const int family : order) nodes += nodes_of(certificate.families[family]);
  for (int family = 0; family < static_cast<int>(certificate.families.size()); family++) {
    if (places.contains(family)) continue;
    nodes += nodes_of(certificate.families[family]);
    if (order.size() >= limits.families / 2 || nodes > limits.nodes / 2) return;
    order.push_back(family);
  }
}

void write_families(std::ostream& text, const Certificate& certificate, const std::vector<int>& order) {
  if (order.empty()) return;
  text << "COMB_SECTION\n";
  for (const int family : order) {
    for (const NodeSet& set : certificate.families[family]) {
      for (const int v : set) text << v + 1 << ' ';
      text << "-1\n";
    }
    text << "-1\n";
  }
  text << "-1\n";
}

void write_list(std::ostream& text, const NodeSet& nodes) {
  for (const int v : nodes) text << v + 1 << ' ';
  text << "-1\n";
}

void write_memory(std::ostream& text, const Certificate& certificate) {
  if (!certificate.memory.empty()) {
    text << "MEMORY_SECTION\n";
    for (const auto& [node, others] : certificate.memory) {
      text << node + 1 << ' ';
      write_list(text, others);
    }
    text << "-1\n";
  }
  if (certificate.rows.empty()) return;
  text << "SUBSET_ROW_SECTION\n";
  for (const KeptRow& row : certificate.rows) {
    write_list(text, row.set);
    write_list(text, row.further);
  }
  text << "-1\n";
}

// By how much multipliers differ; some by 0.
std::map<int, Weight> multiplier_differences(const Numbers& numbers, const Numbers& before) {
  std::map<int, Weight> differences;
  for (const auto& [family, multiplier] : numbers.multipliers) differences[family] += multiplier;
  for (const auto& [family, multiplier] : before.multipliers) differences[family] -= multiplier;
  return differences;
}

// A leaf by the differences of its numbers to those of the leaf before.
void write_leaf(std::ostream& text, const Numbers& numbers, const Numbers& before,
                const std::map<int, int>& families, Weight divisor) {
  text << '0';
  const auto add = [&](std::size_t index, Weight difference) {
    if (difference != 0) text << ' ' << index << ' ' << difference / divisor;
  };
  const std::size_t nodes = numbers.potentials.size();
  for (std::size_t v = 0; v < nodes; v++) add(v + 1, numbers.potentials[v] - before.potentials[v]);
  for (const auto& [family, difference] : multiplier_differences(numbers, before)) {
    if (difference == 0) continue;
    const int place = family < kFirstRow ? families.at(family) : family;
    add(nodes + 1 + static_cast<std::size_t>(place), difference);
  }
  text << " -1\n";
}
}  // namespace

// The canonical text has each keyword on a line of its own, and sections in one order.
Certificate read_certificate(const std::string& tsp, const std::string& path) {
  Certificate certificate;
  std::istringstream text(canonical_text(tsp, path, {}));
  for (std::string line; std::getline(text, line) && line != "EOF";) {
    std::istringstream words(line);
    std::string keyword, colon;
    words >> keyword >> colon;
    if (keyword == "TYPE" && line != "TYPE : BRANCHES") break;
    if (keyword == "DIMENSION") words >> certificate.nodes;
    if (keyword == "SCALE") words >> certificate.scale;
    if (keyword == "LOAD_UNIT") words >> certificate.load_unit;
    if (line.rfind(kNote, 0) == 0) {
      std::string maker, key;
      words >> maker >> key >> certificate.notes[key];
    }
    if (keyword == "COMB_SECTION") read_families(text, certificate);
    if (keyword == "BRANCH_SECTION") read_tree(text, certificate);
  }
  if (certificate.steps.empty()) throw Refusal(path + ": this is no file of TYPE BRANCHES");
  if (!has_all_families(certificate)) throw Refusal(path + ": a step is on a family that isn't there");
  return certificate;
}

double note_of(const Certificate& certificate, const std::string& key, double otherwise) {
  const auto found = certificate.notes.find(key);
  return found == certificate.notes.end() ? otherwise : std::strtod(found->second.c_str(), nullptr);
}

std::size_t nodes_of(const std::vector<NodeSet>& family) {
  std::size_t nodes = 0;
  for (const NodeSet& set : family) nodes += set.size();
  return nodes;
}

std::size_t differences(const Numbers& numbers, const Numbers& before) {
  std::size_t count = 0;
  for (std::size_t v = 0; v < numbers.potentials.size(); v++) {
    const Weight last = before.potentials.empty() ? 0 : before.potentials[v];
    if (numbers.potentials[v] != last) count++;
  }
  for (const auto& [family, difference] : multiplier_differences(numbers, before)) {
    if (difference != 0) count++;
  }
  return count;
}

Extent extent_of(const Certificate& certificate) {
  std::vector<int> order;
  number_families(certificate, order);
  Extent extent{order.size()};
  for (const int family : order) extent.nodes += nodes_of(certificate.families[family]);
  const std::vector<const Numbers*> leaves = leaves_of(certificate);
  extent.branches = certificate.steps.size() - leaves.size();
  const Numbers none;
  for (std::size_t k = 0; k < leaves.size(); k++)
    extent.differences += differences(*leaves[k], k == 0 ? none : *leaves[k - 1]);
  return extent;
}

bool is_within(const Extent& extent, const Extent& limits) {
  return extent.families <= limits.families && extent.nodes <= limits.nodes &&
         extent.differences <= limits.differences && extent.branches <= limits.branches;
}

void write_certificate(const std::string& path, const Certificate& certificate, bool all,
                       const Extent& limits) {
  const Weight divisor = common_divisor(certificate);
  std::vector<int> order;
  const std::map<int, int> places = number_families(certificate, order);
  if (all) add_others(certificate, places, limits, order);
  std::ostringstream text;
  text << "TYPE : BRANCHES\n";
  for (const auto& [key, value] : certificate.notes) text << kNote << key << ' ' << value << '\n';
  text << "DIMENSION : " << certificate.nodes << "\nSCALE : " << certificate.scale / divisor << "\n";
  if (certificate.load_unit != 1) text << "LOAD_UNIT : " << certificate.load_unit << "\n";
  write_families(text, certificate, order);
  write_memory(text, certificate);
  text << "BRANCH_SECTION\n";
  Numbers before;
  before.potentials.assign(certificate.nodes, 0);
  for (const TreeStep& step : certificate.steps) {
    if (const auto* branch = std::get_if<Pair>(&step)) {
      text << branch->first + 1 << ' ' << branch->second + 1 << '\n';
    } else if (const auto* set = std::get_if<FamilyBranch>(&step)) {
      text << certificate.nodes + 1 + places.at(set->family) << ' ' << set->t << '\n';
    } else {
      write_leaf(text, std::get<Numbers>(step), before, places, divisor);
      before = std::get<Numbers>(step);
    }
  }
  text << "EOF\n";
  write_text(path, text.str());
}

namespace {
// A case that the leaf at hand is in.
struct Side {
  const TreeStep* branch;
  bool first;
};

OpenLeaf leaf_below(const std::vector<Side>& above, const Numbers& numbers) {
  OpenLeaf leaf{{}, {}, numbers};
  for (const auto& [branch, first] : above) {
    if (const auto* pair = std::get_if<Pair>(branch)) leaf.decisions.push_back({*pair, first});
    if (const auto* set = std::get_if<FamilyBranch>(branch)) leaf.family_decisions.push_back({*set, first});
  }
  return leaf;
}
}  // namespace

OpenLeaf leaf_of(const Certificate& certificate, int number) {
  std::vector<Side> above;
  int leaves = 0;
  for (const TreeStep& step : certificate.steps) {
    const auto* numbers = std::get_if<Numbers>(&step);
    if (numbers == nullptr) {
      above.push_back({&step, true});
      continue;
    }
    if (++leaves == number) return leaf_below(above, *numbers);
    while (!above.empty() && !above.back().first) above.pop_back();
    if (!above.empty()) above.back().first = false;
  }
  throw Refusal("--leaf " + std::to_string(number) + ": the tree has no such leaf");
}

bool has_family_branches(const Certificate& certificate) {
  return std::any_of(certificate.steps.begin(), certificate.steps.end(),
                     [](const TreeStep& step) { return std::holds_alternative<FamilyBranch>(step); });
}

int add_family(CutPool& pool, const std::vector<NodeSet>& family, int nodes) {
  if (family.size() == 1) return pool.add_subtour(family[0]);
  if (pool.is_comb(family)) return pool.add_comb(family);
  const auto crossings = required_crossings(family, nodes);
  if (!crossings) throw Refusal("a family has too many parts");
  return pool.add_family(family, *crossings);
}
}  // namespace certify
