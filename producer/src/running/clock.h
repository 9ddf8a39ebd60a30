// The limit of time, by a clock or of the processors, and the signals that end a search early.
#pragma once
#include <optional>

namespace certify {
// How long a program may run: seconds of a clock, or of all its threads together.
struct TimeLimit {
  double seconds = 0;
  bool of_processors = false;
};

class Clock {
 public:
  // 0 seconds mean no limit. They count from the start of the program.
  explicit Clock(const TimeLimit& limit) : limit_(limit) {}
  explicit Clock(double seconds) : limit_{seconds, false} {}
  // Seconds since the program's start.
  static double now();
  // Processor seconds of all threads of this process.
  static double processor();
  // SIGINT or SIGTERM, where one came. Another one within a second counts as the first, since `timeout`
  // signals the process and its group; a later one ends the process.
  static std::optional<int> signal();
  static void catch_signals();
  // Whether this part of the time is over, or a signal came.
  bool over(double part = 1) const { return signal().has_value() || used() > part; }
  bool limited() const { return limit_.seconds > 0; }
  // The part of the time that is used, 0 where there is no limit.
  double used() const { return limited() ? since_start(limit_) / limit_.seconds : 0; }
  // Seconds since the program's start, as this limit counts them.
  static double since_start(const TimeLimit& limit) { return limit.of_processors ? processor() : now(); }

 private:
  TimeLimit limit_;
};
}  // namespace certify
