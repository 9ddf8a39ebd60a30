// Ends the solution of a linear program where a part of the time is over.
#pragma once
#include <coin/ClpEventHandler.hpp>

#include "running/clock.h"

namespace certify {
class Watch : public ClpEventHandler {
 public:
  Watch(const Clock& clock, double part) : clock_(clock), part_(part) {}
  int event(Event event) override { return event == endOfFactorization && clock_.over(part_) ? 5 : -1; }
  ClpEventHandler* clone() const override { return new Watch(*this); }

 private:
  const Clock& clock_;
  double part_;
};
}  // namespace certify
