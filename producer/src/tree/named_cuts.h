// The cuts that numbers of leaves name. A file has each of them once, and no more of them than its limits
// say.
#pragma once
#include <memory>

#include "tree/certificate.h"

namespace certify {
// The cuts with multipliers.
std::vector<int> cuts_of(const Numbers& numbers);

class NamedCuts {
 public:
  NamedCuts(const CutPool& pool, const Extent& limits) : pool_(pool), limits_(limits) {}
  // A part's file: all its parts' files together have these cuts, and of the rest each has an equal share.
  void share(const std::vector<int>& cuts, std::size_t parts);
  // Whether the cuts of these numbers fit as well.
  bool fit(const Numbers& numbers) const;
  void add(const Numbers& numbers);
  // Adds those of these cuts that fit, the ones with the largest sums first.
  void fill(const std::map<int, Value>& sums);
  // From now on no other cut is looked for.
  void close() { closed_ = true; }
  bool is_closed() const { return closed_; }
  // The cuts by now. What is returned doesn't change where no other cut is looked for.
  std::shared_ptr<const Marks> marks() const { return marks_; }
  bool has(int cut) const { return is_marked(*marks_, cut); }

 private:
  void begin_change();
  bool add(int cut);
  bool is_nearly_full() const;

  const CutPool& pool_;
  Extent limits_, shared_{}, extent_{};
  bool closed_ = false;
  std::shared_ptr<Marks> marks_ = std::make_shared<Marks>();
};
}  // namespace certify
