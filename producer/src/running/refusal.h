// What ends a run with one line on standard error.
#pragma once
#include <stdexcept>

namespace certify {
class Refusal : public std::runtime_error {
 public:
  using std::runtime_error::runtime_error;
};
}  // namespace certify
