// Walks of the stack that are known at a place: words on the stack that tell that it is the same walk again.
#pragma once
#include "traces.h"

namespace recorder {

// A word of the stack, counted from where the walk begins.
struct Check {
  Word at, word;
};

class Walk {
public:
  static constexpr int MOST = 40;  // an even number

  explicit Walk(const Frame& first) : first(first) {}

  // Goes on to the caller, and notes what that depended on; false at the end of the stack.
  bool step(Frame& frame, const Rule& rule);

  ALWAYS_INLINE bool is_repeated_at(Word stack, Word base_here) const {
    auto word_of = [stack](const Check& it) { return *reinterpret_cast<const Word*>(stack + it.at); };
    if (has_base && base_here - stack != base) return false;
    const Check *it = checks, *end = checks + returns;
    do {
      if (word_of(it[0]) != it[0].word || word_of(it[1]) != it[1].word) return false;
    } while ((it += 2) < end);
    for (int at = 0; __builtin_expect(at < distances, false); at++)
      if (word_of(checks[MOST - 1 - at]) - stack != checks[MOST - 1 - at].word) return false;
    return true;
  }

  void finish();  // no further step is taken

  bool is_told = true;  // all that it depended on is in the checks
  TraceNumber trace = 0;

private:
  void add_return(Word from);
  void add_distance(Word from);
  bool has_room() { return is_told &= returns + distances < MOST; }

  Frame first;
  Word base_from = 0;  // where the base was saved; 0 as long as it is in its register
  bool has_base = false;
  Word base = 0;
  int returns = 0, distances = 0;
  Check checks[MOST];  // return addresses first, and an even number of them; saved bases last, by their distances
};

struct KnownWalks {
  static constexpr int COUNT = 4, MOST_ADDED = 1000;

  // The trace of the walk that is repeated from this frame; 0 where none is.
  ALWAYS_INLINE TraceNumber trace_from(Word stack, Word base) const {
    for (auto& it : walks) {
      const Walk* walk = it.load(std::memory_order_acquire);
      if (walk && walk->is_repeated_at(stack, base)) return walk->trace;
    }
    return 0;
  }

  Word code;  // of their place
  std::atomic<Walk*> walks[COUNT];
  std::atomic<int> added;
};

// The places of which was known last that control blocks are made there, each with its walks.
class BlockPlaces {
public:
  // The trace of the walk that is repeated from this frame; 0 where none is.
  ALWAYS_INLINE TraceNumber trace_of(Word code, Word stack, Word base) const {
    const KnownWalks* walks = last[code % COUNT].load(std::memory_order_acquire);
    return walks && walks->code == code ? walks->trace_from(stack, base) : 0;
  }
  void add(const KnownWalks* walks) { last[walks->code % COUNT].store(walks, std::memory_order_release); }
  void forget(Word code) { last[code % COUNT].store(nullptr, std::memory_order_relaxed); }
  void forget_all() {
    for (auto& it : last) it.store(nullptr, std::memory_order_relaxed);
  }

private:
  static constexpr Word COUNT = 1 << 12;

  std::atomic<const KnownWalks*> last[COUNT];
};
OF_ALL_UNITS BlockPlaces block_places;

}  // namespace recorder
