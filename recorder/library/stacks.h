// Where the stacks of threads lie, and what of them lives.
#pragma once
#include <sys/types.h>

#include <vector>

#include "base.h"

namespace recorder {

struct LivingStack {
  pid_t thread;
  Word from, to;  // from its newest frame up
  Word lowest;    // below it no other memory lies that may hold anything
};

struct Bounds {
  Word from, to;

  bool has(Word address) const { return address - from < to - from; }
};

// Where the stack of this thread lies, which notes it at its first allocation.
extern RECORDER_THREAD Bounds own_stack;
void note_this_thread();

inline bool is_on_this_stack(Word address) { return own_stack.has(address); }

// The greatest number where the stack isn't the thread's own.
inline std::size_t room_on_stack() {
  Word here = stack_here();
  return own_stack.has(here) ? here - own_stack.from : ~std::size_t(0);
}

// Adds the stack that `address` lies in. Where the thread noted another one, as on a fiber or in a signal's handler, that
// one waits: how deep isn't known, so that it is added whole.
void add_living_stacks(pid_t thread, Word address, std::vector<LivingStack>& to);

// Visits where each stack lies that a thread has noted, ended ones too, whose stacks are kept for the next.
void each_known_stack(void (*visit)(Word from, Word to, void* with), void* with);

// Adds all of the stack that a thread has noted, where it has.
void add_whole_stack(pid_t thread, std::vector<LivingStack>& to);

// Whether a signal's frame would not fit.
bool has_small_stack(pid_t thread);

}  // namespace recorder
