// What rows of a record have in common, written once: how blocks were made, and where words lie.
#pragma once
#include <map>
#include <tuple>
#include <vector>

#include "snapshot.h"

namespace recorder {

// A byte of all holders of one kind: of the objects of one making, or of the blocks of their deleters; of a module, a
// thread's stack. `inner` is the byte in a chunk to which pointers lead from `offset`, or -1.
struct Spot {
  enum Kind { DELETER, EPOLL, HEAP, KERNEL, MAPPED, OBJECT, STACK, STATIC, THREAD_LOCAL } kind = HEAP;
  int number = 0;  // of the making, the module, the thread
  std::ptrdiff_t offset = 0, inner = -1;
  bool is_uncertain = false;  // whose the chunk is
  bool is_of_handle = false;  // and not of a pointer alone
  Maker maker;

  bool operator<(const Spot& other) const { return key() < other.key(); }

private:
  std::tuple<int, int, std::ptrdiff_t, std::ptrdiff_t, bool, bool, char, Word> key() const {
    return {kind, number, offset, inner, is_uncertain, is_of_handle, maker.kind, maker.word};
  }
};

// Where one word lies: in the object of a block, or in none (-1), at a spot; in a vector so many bytes from its
// beginning; in memory of which it isn't certain whose it is, or in none (-1).
struct Row {
  int object = -1, spot = 0;
  std::ptrdiff_t byte = 0;
  int memory = -1;
};

class Spots {
public:
  explicit Spots(const Snapshot& all);

  int making_of(int block) const { return making_by_block[block]; }
  Row row_of(Word at, bool is_of_handle);
  // The rows of these, each with the number of what lies there.
  template <typename Items>
  std::vector<std::pair<int, Row>> rows_of(const Items& items, bool are_handles) {
    std::vector<std::pair<int, Row>> rows;
    rows.reserve(items.size());
    for (auto& it : items) rows.push_back({static_cast<int>(rows.size()), row_of(it.at, are_handles)});
    return rows;
  }
  // In the order of their holders and of the places in these.
  void sort(std::vector<std::pair<int, Row>>& rows) const;

  std::vector<int> makings;  // of each its first block
  std::vector<Spot> spots;

private:
  const Maker& maker_of(int chunk);

  const Snapshot& all;
  std::vector<int> making_by_block;
  std::map<Spot, int> number_of;
  std::vector<Maker> makers;  // by chunk, as far as was asked
  std::vector<bool> is_asked;
};

}  // namespace recorder
