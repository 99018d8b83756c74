#include "block_index.h"

#include <algorithm>

namespace recorder {

void BlockIndex::fill(std::vector<Entry> entries) {
  sorted = std::move(entries);
  std::sort(sorted.begin(), sorted.end());
  for (auto& it : sorted) hashed.put(it.first, it.second);
  if (sorted.empty()) return;
  least = sorted.front().first;
  greatest = sorted.back().first;
}

const BlockIndex::Entry* BlockIndex::first_after(Word address) const {
  auto after = std::upper_bound(sorted.begin(), sorted.end(), address,
                                [](Word word, const Entry& it) { return word < it.first; });
  return after == sorted.end() ? nullptr : &*after;
}

const BlockIndex::Entry* BlockIndex::last_up_to(Word address) const {
  const Entry* after = first_after(address);
  const Entry* end = after ? after : sorted.data() + sorted.size();
  return end == sorted.data() ? nullptr : end - 1;
}

}  // namespace recorder
