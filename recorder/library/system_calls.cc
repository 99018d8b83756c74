#include "system_calls.h"

#include <time.h>

namespace recorder {

std::atomic<int> SystemCalls::under_way{0};

// (a thread may be ended in the midst of one, which is waited for no longer than a second)
void SystemCalls::wait_for_end() {
  timespec shortly{0, 200'000};
  for (int pauses = 0; under_way && pauses < 5'000; pauses++) nanosleep(&shortly, nullptr);
}

void SystemCalls::forget_others() { under_way = 0; }

}  // namespace recorder
