// Loops whose steps may run at the same time, by oneTBB. A step must not depend on another one, and draws its
// chance from a generator of its own: then the outcome is the same for any number of threads. There is also
// work beside other work, which must not depend on it either.
#pragma once
#include <oneapi/tbb/parallel_for.h>
#include <oneapi/tbb/task_arena.h>
#include <oneapi/tbb/task_group.h>

#include <atomic>
#include <cstddef>

namespace certify {
#ifdef __SANITIZE_THREAD__
// The thread sanitizer doesn't see what oneTBB's library orders. These show it that a step follows what is
// before its loop, and that what is behind the loop follows each step.
inline std::atomic<unsigned> loops_begun{0}, steps_ended{0};
inline void show_loop_begins() { loops_begun.fetch_add(1, std::memory_order_acq_rel); }
inline void show_step_begins() { static_cast<void>(loops_begun.load(std::memory_order_acquire)); }
inline void show_step_ends() { steps_ended.fetch_add(1, std::memory_order_acq_rel); }
inline void show_loop_ends() { static_cast<void>(steps_ended.load(std::memory_order_acquire)); }
#else
inline void show_loop_begins() {}
inline void show_step_begins() {}
inline void show_step_ends() {}
inline void show_loop_ends() {}
#endif

// Calls step(k) for each k from 0 to count - 1. While it waits its thread takes no other work than this
// loop's, so that what a thread has for itself isn't used twice.
template <typename Step>
void for_each_at_once(std::size_t count, const Step& step) {
  if (count == 1) {
    step(0);
  } else if (count > 1) {
    oneapi::tbb::this_task_arena::isolate([&] {
      const auto shown = [&](std::size_t k) {
        show_step_begins();
        step(k);
        show_step_ends();
      };
      show_loop_begins();
      oneapi::tbb::parallel_for(std::size_t{0}, count, shown, oneapi::tbb::simple_partitioner());
      show_loop_ends();
    });
  }
}

// Work that another thread does meanwhile. Where none is free, `end` does it.
class Beside {
 public:
  template <typename Work>
  void begin(const Work& work) {
    show_loop_begins();
    group_.run([work] {
      show_step_begins();
      work();
      show_step_ends();
    });
  }
  void end() {
    group_.wait();
    show_loop_ends();
  }

 private:
  oneapi::tbb::task_group group_;
};

// How many steps can run at the same time.
inline std::size_t threads() {
  return static_cast<std::size_t>(oneapi::tbb::this_task_arena::max_concurrency());
}
}  // namespace certify
