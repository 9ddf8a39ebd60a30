// Finding the proved program `tsp`, and running it.
#pragma once
#include <optional>
#include <string>
#include <vector>

namespace certify {
// The program `tsp`: the named one, else the one in this program's folder, else that on PATH, else one in the
// two folders above. A name without a slash is looked for on PATH, as a shell does. Throws Refusal where it
// isn't there, or isn't ours.
std::string find_tsp(const std::optional<std::string>& named);
// How a command calls the program that find_tsp finds: as it was named, by its name alone if that leads to it
// on PATH, or else by its path.
std::string call_of_tsp(const std::optional<std::string>& named);
// The name of the program that a run without --tsp finds, or "tsp" where it finds none.
std::string name_of_tsp();
// A command as a shell takes it: words with other characters than those of most paths are quoted.
std::string command_of(const std::vector<std::string>& words);
// The canonical text of a file, which `tsp convert` prints. Other words may follow the path.
std::string canonical_text(const std::string& tsp, const std::string& path,
                           const std::vector<std::string>& words);
struct Output {
  std::string text;
  bool well = false;  // its status was 0
};

// What a program prints on standard output, and where that is asked for on standard error.
Output output_of(const std::vector<std::string>& words, bool with_errors);
// Throws Refusal where a file can't be opened, with the system's reason. A pipe isn't opened twice.
void refuse_unreadable(const std::string& path);
// What the program prints on standard output, whatever its status is.
std::string report_of(const std::string& tsp, const std::vector<std::string>& words);
}  // namespace certify
