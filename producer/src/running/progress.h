// What a search shows on a terminal, and writes to a log.
#pragma once
#include <fstream>
#include <optional>
#include <string>
#include <string_view>

#include "graphs/tour.h"

namespace certify {
// How far a search has come.
struct Standing {
  Weight length, bound;
  int leaves = 0, open = 0;
  int subtours = 0, combs = 0, families = 0;  // rows of the linear program
};

class Progress {
 public:
  // A log has a line of JSON for each event. Throws Refusal where the file can't be written.
  explicit Progress(const std::optional<std::string>& log = std::nullopt);
  // One line that changes, where standard error is a terminal, a few times a second at most.
  void show(const std::string& line);
  void show(const Standing& standing);
  void clear();
  void log(std::string_view event, const Standing& standing);
  // The same for another search. Without a length there is no gap. `more` are further members, as `"steps":
  // 3`.
  void log(std::string_view event, std::optional<Weight> length, Weight bound, std::string_view more);
  // Throws Refusal where the log isn't written whole.
  void end();

 private:
  bool terminal_;
  std::optional<double> shown_;  // when
  std::string path_;
  std::ofstream log_;
};
}  // namespace certify
