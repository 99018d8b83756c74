// A fiber calls exit while main, which started it, waits on its own stack: what main's frame owns is kept.
#include <ucontext.h>

#include <cstdlib>
#include <memory>
#include <vector>

struct Job {
  int number = 0;
};

void run_fiber() { std::exit(0); }

int main() {
  constexpr std::size_t SIZE = 64 << 10;
  std::vector<std::shared_ptr<Job>> jobs{std::make_shared<Job>(), std::make_shared<Job>()};
  ucontext_t of_main, of_fiber;
  getcontext(&of_fiber);
  of_fiber.uc_stack.ss_sp = std::malloc(SIZE);
  of_fiber.uc_stack.ss_size = SIZE;
  makecontext(&of_fiber, run_fiber, 0);
  swapcontext(&of_main, &of_fiber);
  return jobs.front()->number;
}
