// A thread computes on a fiber while main ends the process: what the frame on the thread's own stack owns is kept.
#include <ucontext.h>

#include <atomic>
#include <cstdlib>
#include <memory>
#include <thread>
#include <vector>

struct Job {
  int number = 0;
};
std::atomic<bool> is_there{false};

void run_fiber() {
  is_there = true;
  while (is_there) {
  }
}

void run_thread() {
  constexpr std::size_t SIZE = 64 << 10;
  std::vector<std::shared_ptr<Job>> jobs{std::make_shared<Job>(), std::make_shared<Job>()};
  ucontext_t of_thread, of_fiber;
  getcontext(&of_fiber);
  of_fiber.uc_stack.ss_sp = std::malloc(SIZE);
  of_fiber.uc_stack.ss_size = SIZE;
  makecontext(&of_fiber, run_fiber, 0);
  swapcontext(&of_thread, &of_fiber);
  jobs.front()->number++;
}

int main() {
  std::thread(run_thread).detach();
  while (!is_there) std::this_thread::yield();
  std::exit(0);
}
