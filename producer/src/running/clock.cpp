#include "running/clock.h"

#include <atomic>
#include <chrono>
#include <csignal>
#include <cstdint>
#include <ctime>

namespace certify {
namespace {
constexpr std::int64_t kSecond = 1000000000;  // in nanoseconds

// Two threads may have a signal each at once.
std::atomic<int> first_signal = 0;
std::atomic<std::int64_t> first_time = 0;  // of a signal; 0 before it
static_assert(std::atomic<int>::is_always_lock_free && std::atomic<std::int64_t>::is_always_lock_free);

const auto program_start = std::chrono::steady_clock::now();

std::int64_t monotonic_time() {
  timespec now{};
  clock_gettime(CLOCK_MONOTONIC, &now);
  return now.tv_sec * kSecond + now.tv_nsec;
}

// All calls in it may be made by a handler of signals.
void note_signal(int signal) {
  const std::int64_t now = monotonic_time();
  std::int64_t first = 0;
  if (first_time.compare_exchange_strong(first, now)) {
    first_signal = signal;
  } else if (now - first > kSecond) {
    std::signal(signal, SIG_DFL);
    std::raise(signal);
  }
}
}  // namespace

double Clock::now() {
  return std::chrono::duration<double>(std::chrono::steady_clock::now() - program_start).count();
}

double Clock::processor() {
  timespec time{};
  clock_gettime(CLOCK_PROCESS_CPUTIME_ID, &time);
  return static_cast<double>(time.tv_sec) + static_cast<double>(time.tv_nsec) * 1e-9;
}

std::optional<int> Clock::signal() {
  const int signal = first_signal;
  return signal == 0 ? std::nullopt : std::optional(signal);
}

void Clock::catch_signals() {
  struct sigaction action {};
  action.sa_handler = note_signal;
  action.sa_flags = SA_RESTART;
  sigaddset(&action.sa_mask, SIGINT);
  sigaddset(&action.sa_mask, SIGTERM);
  for (const int signal : {SIGINT, SIGTERM}) sigaction(signal, &action, nullptr);
}
}  // namespace certify
