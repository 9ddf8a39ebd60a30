// Jobs that are solved at once, and taken in their order.
//
// One begins when all but the last few before it were taken, and knows what came of those and of no others.
// So what comes of all is the same for any number of threads.
#pragma once
#include <oneapi/tbb/parallel_pipeline.h>

#include <deque>
#include <memory>
#include <mutex>

#include "running/threads.h"

namespace certify {
template <typename Job>
class JobWindow {
 public:
  struct Slot {
    Job job{};
    std::mutex access{};  // (whoever has the job next sees what the one before wrote)
  };
  using Begun = std::shared_ptr<Slot>;
  // As many are begun and not taken at most.
  explicit JobWindow(int size) : size_(static_cast<std::size_t>(size)) {}
  // begin(job) fills the next job, the last of running(), or is false where there is none any more. A job may
  // stay empty, where there is none until another one is taken. take(job) has what came of a job. Both are
  // called with access() locked, and solve(job) by any thread.
  template <typename Begin, typename Solve, typename Take>
  void run(const Begin& begin, const Solve& solve, const Take& take) {
    using oneapi::tbb::filter_mode;
    using oneapi::tbb::make_filter;
    // The first filter begins jobs one by one, and the last one lets as many be on the way as the window has
    // places.
    const auto first = make_filter<void, Begun>(filter_mode::serial_in_order, [&](auto& flow) {
      show_step_begins();
      Begun slot = begin_next(begin, take);
      if (!slot) flow.stop();
      return slot;
    });
    const auto work = make_filter<Begun, Begun>(filter_mode::parallel, [&](const Begun& slot) {
      show_step_begins();
      if (slot) solve(*slot);
      return slot;
    });
    const auto last = make_filter<Begun, void>(filter_mode::serial_in_order, [](const Begun&) {});
    show_loop_begins();
    oneapi::tbb::parallel_pipeline(size_, first & work & last);
    const std::lock_guard lock(access_);
    while (!running_.empty()) take_oldest(take);
  }
  std::mutex& access() { return access_; }
  // Those that are begun and not taken, in order.
  const std::deque<Begun>& running() const { return running_; }

 private:
  template <typename Begin, typename Take>
  Begun begin_next(const Begin& begin, const Take& take) {
    const std::lock_guard lock(access_);
    while (running_.size() >= size_) take_oldest(take);
    auto slot = std::make_shared<Slot>();
    running_.push_back(slot);
    const std::lock_guard own(slot->access);
    if (begin(slot->job)) return slot;
    running_.pop_back();
    return nullptr;
  }
  template <typename Take>
  void take_oldest(const Take& take) {
    const Begun oldest = running_.front();
    running_.pop_front();
    const std::lock_guard lock(oldest->access);
    take(oldest->job);
  }

  const std::size_t size_;
  std::mutex access_;
  std::deque<Begun> running_;
};
}  // namespace certify
