#include "running/writing.h"

#include <unistd.h>

#include <algorithm>
#include <cerrno>
#include <cstring>
#include <filesystem>
#include <fstream>
#include <sstream>

#include "running/refusal.h"

namespace certify {
namespace fs = std::filesystem;
// Of files that aren't there yet the paths decide.
bool same_file(const std::string& one, const std::string& other) {
  std::error_code error;
  if (fs::exists(one, error) && !fs::is_regular_file(one, error)) return false;
  if (fs::equivalent(one, other, error)) return true;
  const auto whole = [&](const std::string& path) {
    return fs::weakly_canonical(fs::absolute(path, error), error);
  };
  return whole(one) == whole(other);
}

void write_text(const std::string& path, const std::string& text) {
  std::ofstream file(path, std::ios::binary);
  file << text;
  file.close();
  if (!file) throw Refusal(path + ": " + std::strerror(errno));
}

void write_tour(const std::string& path, const Tour& tour) {
  std::ostringstream text;
  text << "TYPE : TOUR\nDIMENSION : " << tour.size() << "\nTOUR_SECTION\n";
  Tour from_first = tour;
  std::rotate(from_first.begin(), std::find(from_first.begin(), from_first.end(), 0), from_first.end());
  for (const int v : from_first) text << v + 1 << '\n';
  text << "-1\nEOF\n";
  write_text(path, text.str());
}

void refuse_overwriting(std::vector<std::string> read,
                        const std::vector<std::optional<std::string>>& written) {
  const std::size_t first = read.size();
  for (const std::optional<std::string>& path : written) {
    if (!path) continue;
    for (std::size_t k = 0; k < read.size(); k++) {
      if (!same_file(read[k], *path)) continue;
      const std::string what = read[k] == *path ? "" : " (it is " + read[k] + ")";
      throw Refusal(*path + ": this file " + (k < first ? "is read" : "is written already") +
                    ", and would be overwritten" + what + ": choose another name");
    }
    read.push_back(*path);
  }
}

// Of a file that isn't there yet its folder decides.
void refuse_unwritable(const std::vector<std::optional<std::string>>& written) {
  std::error_code error;
  for (const std::optional<std::string>& path : written) {
    if (!path) continue;
    if (fs::is_directory(*path, error)) throw Refusal(*path + ": " + std::strerror(EISDIR));
    const fs::path folder = fs::path(*path).has_parent_path() ? fs::path(*path).parent_path() : ".";
    const fs::path place = fs::exists(*path, error) ? fs::path(*path) : folder;
    if (access(place.c_str(), W_OK) != 0) throw Refusal(*path + ": " + std::strerror(errno));
  }
}
}  // namespace certify
