// Races that the thread sanitizer has to report, so that its suppressions hide none of this program: racy
// LOOP, where LOOP is steps or pipeline.
#include <oneapi/tbb/parallel_pipeline.h>

#include <cmath>
#include <iostream>
#include <string_view>

#include "running/threads.h"

using namespace certify;

namespace {
int counter = 0;

// Long enough for several threads to have a part.
void step() {
  double sum = 0;
  for (int k = 0; k < 20000; k++) sum += std::sin(k);
  if (sum < 1e6) counter++;
}

void pipeline() {
  using oneapi::tbb::filter_mode;
  using oneapi::tbb::make_filter;
  int given = 0;
  const auto begin = make_filter<void, int>(filter_mode::serial_in_order, [&](auto& flow) {
    if (given == 400) flow.stop();
    return given++;
  });
  const auto work = make_filter<int, void>(filter_mode::parallel, [](int) {
    show_step_begins();
    step();
  });
  oneapi::tbb::parallel_pipeline(8, begin & work);
}
}  // namespace

int main(int count, char** words) {
  oneapi::tbb::task_arena arena(4);
  arena.execute([&] {
    if (count > 1 && std::string_view(words[1]) == "pipeline") {
      pipeline();
    } else {
      for_each_at_once(2000, [](std::size_t) { step(); });
    }
  });
  std::cout << counter << "\n";
  return 0;
}
