// The reading of memory, which may fail and never takes the program with it.
#pragma once
#include <signal.h>

#include <optional>

#include "base.h"

namespace recorder {

// Why nothing will be told of this process; null as long as there is no reason.
OF_ALL_UNITS std::atomic<const char*> refusal;

// From now on nothing is noted, and the end tells this reason. It has to last.
void stop_recording(const char* why);

// Of a clock that only goes on.
long milliseconds_now();

// While one lives this thread alone reads memory, and no handler of the program runs in it, on which it would find the
// reader's memory, or which would wait for a turn of its own. Until then it can be made to stand still for another's.
class Turn {
public:
  Turn();
  ~Turn();
  Turn(const Turn&) = delete;

  static void let_go();  // in a process that is new, where the thread that had it isn't

private:
  bool take();

  std::optional<Inside> inside;
  sigset_t before;
};

// Runs `work` on a stack of its own, as a thread's may be small, within a turn. Returns null, or why it gave up: also
// where it takes more than so many seconds, however it is held up.
const char* read_apart(void (*work)(), int seconds);

// While one lives, the reading isn't given up for its time, as it holds a lock that others want.
class HeldLock {
public:
  HeldLock();
  ~HeldLock();
  HeldLock(const HeldLock&) = delete;
};

// Leaves read_apart() with this reason, from within its work.
[[noreturn]] void give_up(const char* why);

}  // namespace recorder
