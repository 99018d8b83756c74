// Places in code to which calls return, each with the rule of its frame and what is made there.
#pragma once
#include "unwinding.h"

namespace recorder {

// Chunks that were made at one place and may live still.
struct Samples {
  static constexpr int COUNT = 8;
  std::atomic<Word> chunks[COUNT];
};

struct KnownWalks;

// A trace's number from 1; 0 for none.
using TraceNumber = std::uint32_t;

struct alignas(64) Place {
  enum Role : unsigned char {
    UNKNOWN,
    PLAIN,    // no control blocks, as far as was seen
    BLOCKS,   // control blocks
    THROUGH,  // it asks for others, as operator new does: their places tell
  };

  std::atomic<Word> code{0};               // 0 in a free slot; written last
  std::atomic<std::uint32_t> closings{0};  // how many modules had been closed when the rule was read
  Rule rule;
  std::atomic<Role> role{UNKNOWN};
  std::atomic<unsigned char> plain{0}, blocks{0};  // how many samples were so
  std::atomic<std::uint32_t> made{0};              // (counted as long as nothing is known)
  std::atomic<std::uint32_t> trace{0};             // of this place alone
  std::atomic<Samples*> samples{nullptr};
  std::atomic<KnownWalks*> walks{nullptr};
};

// A table without locks for those who read; a greater one takes its place when it is full, and it stays for them.
struct PlaceTable {
  std::size_t capacity, used;
  Place slots[1];  // (capacity is a power of two)

  // The slot of this place, or a free one.
  Place& slot(Word code) {
    std::size_t at = (code * 0x9E3779B97F4A7C15ull >> 32) & (capacity - 1);
    for (;; at = (at + 1) & (capacity - 1)) {
      Word found = slots[at].code.load(std::memory_order_acquire);
      if (!found || found == code) return slots[at];
    }
  }
};

// The place in operator new that nearly all memory of C++ comes through, where its rule is a simple one.
struct Entrance {
  std::atomic<Word> code, caller_stack;
};

OF_ALL_UNITS Entrance entrance;
OF_ALL_UNITS std::atomic<PlaceTable*> place_table;
OF_ALL_UNITS std::atomic<std::uint32_t> module_closings;

// Adds a place, or what is known of it now; null where no memory is left.
Place* add_place(Word code);

// Finds a place of which is known what holds now, else null.
inline Place* known_place(Word code) {
  PlaceTable* all = place_table.load(std::memory_order_acquire);
  if (!all) return nullptr;
  Place& place = all->slot(code);
  std::uint32_t closings = module_closings.load(std::memory_order_relaxed);
  bool is_known = place.code.load(std::memory_order_relaxed) && place.closings.load(std::memory_order_relaxed) == closings;
  return is_known ? &place : nullptr;
}

inline Place* place_of(Word code) {
  Place* found = known_place(code);
  return found ? found : add_place(code);
}

// The places of which was known last that no control blocks are made there, each with its trace in one word.
class PlainPlaces {
public:
  ALWAYS_INLINE TraceNumber trace_of(Word code) const {
    Word word = last[code % COUNT].load(std::memory_order_relaxed);
    return word >> BITS_OF_TRACE == code / PAGE ? static_cast<TraceNumber>(word & MOST_TRACES) : 0;
  }
  void add(Word code, TraceNumber trace) {
    if (trace <= MOST_TRACES) last[code % COUNT].store(code / PAGE << BITS_OF_TRACE | trace, std::memory_order_relaxed);
  }
  void forget(Word code) { last[code % COUNT].store(0, std::memory_order_relaxed); }
  void forget_all() {
    for (auto& it : last) it.store(0, std::memory_order_relaxed);
  }

private:
  static constexpr int BITS_OF_TRACE = 24;
  static constexpr Word PAGE = 4096, COUNT = 4 * PAGE, MOST_TRACES = (1 << BITS_OF_TRACE) - 1;

  std::atomic<Word> last[COUNT];
};
OF_ALL_UNITS PlainPlaces plain_places;

// What holds of no place, or not of this one, any more: the tables that are asked first forget it.
void forget_answers();
void forget_answer(Word code);

// Round a fork.
void lock_places();
void unlock_places();

}  // namespace recorder
