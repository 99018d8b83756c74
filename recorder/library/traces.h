// Call stacks, each kept once, under a number.
#pragma once
#include "places.h"

namespace recorder {

struct Trace {
  std::uint64_t key;
  Word maker;  // the place in code that asked for memory
  int count;
  Word frames[1];  // so many of them, the newest first
};

constexpr int MOST_FRAMES = 64;

OF_ALL_UNITS int frames_wanted;  // how many are taken of each making; 0 for none

const Trace* trace_of(TraceNumber number);

struct Taken {
  TraceNumber trace;
  Place* unknown;  // the place where nothing is known yet of what is made there
};

// The trace of memory that is asked for from this frame. Where it is for no control block, as far as was seen of that
// place, that alone is its trace: what strings and containers take costs next to nothing.
Taken trace_of_memory(Frame frame);

// The same without a lock, where it is known already; else 0.
TraceNumber known_trace_of_memory(Word code, Word stack, Word base);

// Goes on to the caller from within operator new, through which nearly all memory of C++ comes.
ALWAYS_INLINE void leave_entrance(Word& code, Word& stack) {
  if (code != entrance.code.load(std::memory_order_acquire)) return;
  stack += entrance.caller_stack.load(std::memory_order_relaxed);
  code = reinterpret_cast<const Word*>(stack)[-1];
}

// The trace of a control block that hooks tell of.
TraceNumber trace_of_block(Frame frame);

// A sample is given back: what it shows of its place.
void learn_from(TraceNumber trace, const Word* memory, std::size_t bytes);

// Round a fork.
void lock_traces();
void unlock_traces();

}  // namespace recorder
