#include "tree/joining.h"

#include <algorithm>
#include <cstdlib>
#include <numeric>

#include "running/refusal.h"

namespace certify {
namespace {
// The numbers of a part at the scale of the whole, by the families of the whole.
Numbers moved(const Numbers& numbers, Weight factor, const std::vector<int>& families) {
  Numbers moved;
  for (const Weight potential : numbers.potentials) moved.potentials.push_back(potential * factor);
  for (const auto& [family, multiplier] : numbers.multipliers) {
    moved.multipliers[families.at(family)] += multiplier * factor;
  }
  return moved;
}

int leaf_number(const Certificate& part) {
  return static_cast<int>(std::strtol(part.notes.at("leaf").c_str(), nullptr, 10));
}

void check_parts(const Certificate& tree, const std::vector<Certificate>& parts) {
  const std::string identity = identity_of(tree);
  for (const Certificate& part : parts) {
    const auto of = part.notes.find("tree");
    if (part.nodes != tree.nodes || part.load_unit != tree.load_unit || of == part.notes.end() ||
        !part.notes.contains("leaf") || of->second != identity)
      throw Refusal("--join: a part is of another tree");
  }
}

// The largest part of a limit that a part takes.
double share_of(const Certificate& part, const Extent& limits) {
  const Extent extent = extent_of(part);
  const auto share = [](std::size_t count, std::size_t limit) {
    return static_cast<double>(count) / static_cast<double>(std::max<std::size_t>(limit, 1));
  };
  return std::max({share(extent.families, limits.families), share(extent.nodes, limits.nodes),
                   share(extent.differences, limits.differences), share(extent.branches, limits.branches)});
}

// The numbers of parts by their shares. Of a leaf's parts it is the last one.
std::vector<std::size_t> smallest_first(const std::vector<Certificate>& parts, const Extent& limits) {
  std::map<int, std::size_t> by_leaf;
  for (std::size_t k = 0; k < parts.size(); k++) by_leaf[leaf_number(parts[k])] = k;
  std::vector<std::pair<double, std::size_t>> shares;
  shares.reserve(by_leaf.size());
  for (const auto& [leaf, part] : by_leaf) shares.emplace_back(share_of(parts[part], limits), part);
  std::sort(shares.begin(), shares.end());
  std::vector<std::size_t> order;
  order.reserve(shares.size());
  for (const auto& [share, part] : shares) order.push_back(part);
  return order;
}

// Parts put into a tree.
class Joining {
 public:
  // The first ones of an order.
  Joining(const Certificate& tree, const std::vector<Certificate>& parts,
          const std::vector<std::size_t>& order, std::size_t count)
      : tree_(tree), whole_{tree.nodes, tree.scale} {
    whole_.load_unit = tree.load_unit;
    for (std::size_t k = 0; k < count; k++) {
      const Certificate& part = parts[order[k]];
      parts_[leaf_number(part)] = &part;
      whole_.scale = std::lcm(whole_.scale, part.scale);
    }
  }
  Certificate whole() {
    const std::vector<int> places = places_of(tree_);
    int leaves = 0;
    for (const TreeStep& step : tree_.steps) {
      const bool is_leaf = std::holds_alternative<Numbers>(step);
      const auto part = is_leaf ? parts_.find(++leaves) : parts_.end();
      if (part == parts_.end()) {
        add(tree_, places, step);
        continue;
      }
      const std::vector<int> own = places_of(*part->second);
      for (const TreeStep& below : part->second->steps) add(*part->second, own, below);
    }
    for (const char* key : {"root-gap", "large-tree"}) {
      const auto note = tree_.notes.find(key);
      if (note != tree_.notes.end()) whole_.notes.insert(*note);
    }
    double open = note_of(tree_, "open", 0);
    for (const auto& [leaf, part] : parts_) open += note_of(*part, "open", 0) - 1;
    if (open > 0) whole_.notes["open"] = std::to_string(static_cast<int>(open));
    return std::move(whole_);
  }

 private:
  // The places of a part's families in the whole.
  std::vector<int> places_of(const Certificate& part) {
    std::vector<int> places;
    for (const std::vector<NodeSet>& family : part.families) {
      const auto [place, fresh] = known_.emplace(family, whole_.families.size());
      if (fresh) whole_.families.push_back(family);
      places.push_back(place->second);
    }
    return places;
  }
  void add(const Certificate& part, const std::vector<int>& places, const TreeStep& step) {
    if (const auto* numbers = std::get_if<Numbers>(&step)) {
      whole_.steps.emplace_back(moved(*numbers, whole_.scale / part.scale, places));
    } else if (const auto* branch = std::get_if<FamilyBranch>(&step)) {
      whole_.steps.emplace_back(FamilyBranch{places.at(branch->family), branch->t});
    } else {
      whole_.steps.push_back(step);
    }
  }

  const Certificate& tree_;
  Certificate whole_;
  std::map<int, const Certificate*> parts_;  // by their leaf
  std::map<std::vector<NodeSet>, int> known_;
};
}  // namespace

Joined joined(const Certificate& tree, const std::vector<Certificate>& parts, const Extent& limits) {
  check_parts(tree, parts);
  const std::vector<std::size_t> order = smallest_first(parts, limits);
  const auto first = [&](std::size_t count) { return Joining(tree, parts, order, count).whole(); };
  Joined joined{first(order.size())};
  if (is_within(extent_of(joined.whole), limits)) return joined;
  std::size_t fit = 0, most = order.size();  // as many fit, and no more than these
  while (fit < most) {
    const std::size_t middle = (fit + most + 1) / 2;
    if (is_within(extent_of(first(middle)), limits)) {
      fit = middle;
    } else {
      most = middle - 1;
    }
  }
  joined = {first(fit), {order.begin() + static_cast<std::ptrdiff_t>(fit), order.end()}};
  std::sort(joined.left_out.begin(), joined.left_out.end());
  return joined;
}

std::string identity_of(const Certificate& certificate) {
  std::uint64_t sum = 0xcbf29ce484222325ull;  // FNV-1a
  const auto add = [&](Weight number) {
    sum = (sum ^ static_cast<std::uint64_t>(number)) * 0x100000001b3ull;
  };
  add(certificate.nodes);
  add(certificate.scale);
  for (const std::vector<NodeSet>& family : certificate.families) {
    for (const NodeSet& set : family) {
      for (const int v : set) add(v);
      add(-1);
    }
    add(-1);
  }
  for (const TreeStep& step : certificate.steps) {
    if (const auto* pair = std::get_if<Pair>(&step)) {
      add(pair->first);
      add(pair->second);
      continue;
    }
    if (const auto* branch = std::get_if<FamilyBranch>(&step)) {
      add(certificate.nodes + branch->family);
      add(branch->t);
      continue;
    }
    for (const Weight potential : std::get<Numbers>(step).potentials) add(potential);
    for (const auto& [family, multiplier] : std::get<Numbers>(step).multipliers) {
      add(family);
      add(multiplier);
    }
  }
  return std::to_string(sum);
}
}  // namespace certify
