// Calls of the system's by themselves: once they are waited for none is under way, and no more are allowed.
#include "../../../recorder/library/system_calls.h"

#include <unistd.h>

#include <cstdio>
#include <thread>
#include <vector>

using namespace recorder;

std::atomic<int> recorder::unusual_process{0};
std::atomic<bool> is_confined{false}, is_ended{false};
std::atomic<int> late{0}, made{0};

void call_again_and_again() {
  while (!is_ended) {
    SystemCalls calls;
    if (!calls.are_allowed()) continue;
    usleep(500);
    made++;
    late += is_confined;
  }
}

int main() {
  std::vector<std::thread> threads;
  for (int count = 0; count < 4; count++) threads.emplace_back(call_again_and_again);
  while (made < 100) usleep(100);
  stop_noting();
  SystemCalls::wait_for_end();
  is_confined = true;
  usleep(20'000);
  is_ended = true;
  for (auto& thread : threads) thread.join();
  if (late) std::printf("%d calls were under way\n", late.load());
}
