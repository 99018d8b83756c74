// The numbers of control blocks by their addresses.
#pragma once
#include <utility>
#include <vector>

#include "table.h"

namespace recorder {

class BlockIndex {
public:
  using Entry = std::pair<Word, int>;

  BlockIndex() = default;
  BlockIndex(const BlockIndex&) = delete;
  ~BlockIndex() { hashed.clear(); }

  // The entries may be in any order.
  void fill(std::vector<Entry> entries);

  // -1 where none is just there. (Each word of memory is looked up.)
  int at(Word address) const {
    if (address - least > greatest - least) return -1;
    const int* found = hashed.find(address);
    return found ? *found : -1;
  }
  const Entry* first_after(Word address) const;    // null where there is none
  const Entry* last_up_to(Word address) const;

private:
  Word least = 1, greatest = 0;  // (none lies within)
  std::vector<Entry> sorted;
  Table<int> hashed;
};

}  // namespace recorder
