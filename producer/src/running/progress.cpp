#include "running/progress.h"

#include <unistd.h>

#include <cerrno>
#include <cstdio>
#include <cstring>
#include <sstream>

#include "running/clock.h"
#include "running/refusal.h"

namespace certify {
Progress::Progress(const std::optional<std::string>& log) : terminal_(isatty(STDERR_FILENO) != 0) {
  if (!log) return;
  path_ = *log;
  log_.open(path_, std::ios::binary);
  if (!log_) throw Refusal(path_ + ": " + std::strerror(errno));
}

void Progress::show(const std::string& line) {
  if (!terminal_ || (shown_ && Clock::now() - *shown_ < 0.2)) return;
  shown_ = Clock::now();
  std::fprintf(stderr, "\r\033[K%s", line.c_str());
  std::fflush(stderr);
}

void Progress::show(const Standing& standing) {
  std::ostringstream line;
  line << "seconds " << static_cast<int>(Clock::now()) << " length " << standing.length << " bound "
       << standing.bound << " gap " << standing.length - standing.bound << " leaves " << standing.leaves
       << " open " << standing.open;
  show(line.str());
}

void Progress::clear() {
  if (terminal_ && shown_) std::fprintf(stderr, "\r\033[K");
  shown_.reset();
}

void Progress::log(std::string_view event, const Standing& standing) {
  if (!log_.is_open()) return;
  std::ostringstream more;
  more << R"("leaves": )" << standing.leaves << R"(, "open": )" << standing.open
       << R"(, "cuts": {"subtours": )" << standing.subtours << R"(, "combs": )" << standing.combs
       << R"(, "families": )" << standing.families << "}";
  log(event, standing.length, standing.bound, more.str());
}

void Progress::log(std::string_view event, std::optional<Weight> length, Weight bound,
                   std::string_view more) {
  if (!log_.is_open()) return;
  log_ << R"({"event": ")" << event << R"(", "seconds": )" << Clock::now() << R"(, "processor": )"
       << Clock::processor();
  if (length) log_ << R"(, "length": )" << *length;
  log_ << R"(, "bound": )" << bound;
  if (length) log_ << R"(, "gap": )" << *length - bound;
  log_ << ", " << more << "}" << std::endl;
}

void Progress::end() {
  clear();
  if (!log_.is_open()) return;
  log_.close();
  if (!log_) throw Refusal(path_ + ": the log isn't written whole");
}
}  // namespace certify
