#include "reading/canonical.h"

#include <algorithm>
#include <cctype>
#include <charconv>

#include "running/refusal.h"

namespace certify {
namespace {
bool begins_with_letter(std::string_view line) {
  return !line.empty() && std::isalpha(static_cast<unsigned char>(line[0])) != 0;
}
}  // namespace

Canonical::Canonical(std::string text) : text_(std::move(text)) {
  const std::string_view all = text_;
  std::string_view name;
  std::size_t begin = 0;  // of the part
  for (std::size_t at = 0; at < all.size();) {
    const std::size_t end = std::min(all.find('\n', at), all.size());
    const std::string_view line = all.substr(at, end - at);
    if (begins_with_letter(line)) {
      if (!name.empty()) parts_[name] = all.substr(begin, at - begin);
      if (line == "EOF") return;
      const std::size_t colon = line.find(" :");
      name = line.substr(0, colon);
      begin = colon == std::string_view::npos ? end : at + colon + 2;
    }
    at = end + 1;
  }
  if (!name.empty()) parts_[name] = all.substr(begin);
}

std::string_view Canonical::value(std::string_view keyword) const {
  std::string_view word;
  const auto found = parts_.find(keyword);
  if (found != parts_.end()) Words(found->second).next(word);
  return word;
}

std::string_view Canonical::section(std::string_view name) const {
  const auto found = parts_.find(name);
  if (found == parts_.end()) throw Refusal("there is no " + std::string(name));
  return found->second;
}

int Canonical::nodes() const { return static_cast<int>(Words(section("DIMENSION")).whole()); }

bool Words::next(std::string_view& word) {
  const std::size_t begin = rest_.find_first_not_of(" \n");
  if (begin == std::string_view::npos) return false;
  const std::size_t end = std::min(rest_.find_first_of(" \n", begin), rest_.size());
  word = rest_.substr(begin, end - begin);
  rest_.remove_prefix(end);
  return true;
}

Weight Words::whole() {
  std::string_view word;
  Weight number = 0;
  if (!next(word) || std::from_chars(word.data(), word.data() + word.size(), number).ec != std::errc()) {
    throw Refusal("a whole number is missing");
  }
  return number;
}

Weight count_of(std::string_view word) {
  const bool negative = !word.empty() && word[0] == '-';
  Weight count = 0;
  int places = -1;  // behind the point
  for (const char c : word) {
    if (c == '.') places = 0;
    if (c < '0' || c > '9') continue;
    count = 10 * count + (c - '0');
    if (places >= 0) places++;
  }
  for (int k = std::max(places, 0); k < 9; k++) count *= 10;
  return negative ? -count : count;
}

std::vector<Point> points_of(const Canonical& file) {
  const bool deep = file.value("EDGE_WEIGHT_TYPE").ends_with("_3D");
  const std::size_t numbers = deep || file.value("NODE_COORD_TYPE") == "THREED_COORDS" ? 3 : 2;
  std::vector<Point> points(file.nodes(), Point{});
  Words words(file.section("NODE_COORD_SECTION"));
  for (std::size_t k = 0; k < points.size(); k++) {
    Point& point = points.at(words.whole() - 1);
    std::string_view word;
    for (std::size_t axis = 0; axis < numbers && words.next(word); axis++) {
      if (axis < 2 || deep) point[axis] = count_of(word);
    }
  }
  return points;
}

Matrix full_matrix(const Canonical& file) {
  Words words(file.section("EDGE_WEIGHT_SECTION"));
  Matrix weights(file.nodes());
  for (int i = 0; i < weights.nodes(); i++) {
    for (int j = 0; j < weights.nodes(); j++) {
      const Weight weight = words.whole();
      if (i != j) weights.set_arc(i, j, weight);
    }
  }
  return weights;
}

bool is_symmetric(const Matrix& weights) {
  for (int i = 0; i < weights.nodes(); i++) {
    for (int j = 0; j < i; j++) {
      if (weights(i, j) != weights(j, i)) return false;
    }
  }
  return true;
}

std::vector<Pair> fixed_pairs(const Canonical& file) {
  std::vector<Pair> pairs;
  if (!file.has("FIXED_EDGES_SECTION")) return pairs;
  Words words(file.section("FIXED_EDGES_SECTION"));
  for (Weight first = words.whole(); first != -1; first = words.whole()) {
    pairs.emplace_back(static_cast<int>(first) - 1, static_cast<int>(words.whole()) - 1);
  }
  return pairs;
}

Tour tour_of(const Canonical& file) {
  Tour tour;
  Words words(file.section("TOUR_SECTION"));
  for (std::string_view word; words.next(word);) {
    if (word != "-1") tour.push_back(static_cast<int>(count_of(word) / 1000000000) - 1);
  }
  return tour;
}
}  // namespace certify
