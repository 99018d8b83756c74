// Calls of the system's that the recorder makes while the program runs: none once the program has confined itself.
#pragma once
#include "base.h"

namespace recorder {

// While one lives, its thread makes such calls if they are allowed.
class SystemCalls {
public:
  SystemCalls() { under_way++; }
  ~SystemCalls() { under_way--; }
  SystemCalls(const SystemCalls&) = delete;

  // (asked after they are counted: who confines the program waits, or this sees it)
  bool are_allowed() const { return is_recording(); }

  static void wait_for_end();  // of those that are under way, where no more are allowed
  static void forget_others();  // in a process that is new

private:
  static std::atomic<int> under_way;
};

}  // namespace recorder
