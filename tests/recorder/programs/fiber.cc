// A fiber's stack behind a page that nobody may touch, as stacks of threads lie: what lives on it keeps.
#include <sys/mman.h>
#include <ucontext.h>

#include <cstdlib>
#include <memory>

struct Job {
  int number = 1;
};
struct Session {
  std::shared_ptr<Job> job = std::make_shared<Job>();
};
ucontext_t of_main, of_fiber;

__attribute__((noinline)) void run_fiber() {
  auto session = std::make_unique<Session>();
  asm volatile("" : : "r"(session.get()) : "memory");  // (so that no compiler leaves it out)
  swapcontext(&of_fiber, &of_main);
  std::exit(session->job->number);
}

int main() {
  constexpr std::size_t PAGE = 4096, SIZE = 64 << 10;
  void* room = mmap(nullptr, PAGE + SIZE, PROT_READ | PROT_WRITE, MAP_PRIVATE | MAP_ANONYMOUS, -1, 0);
  mprotect(room, PAGE, PROT_NONE);
  getcontext(&of_fiber);
  of_fiber.uc_stack.ss_sp = static_cast<char*>(room) + PAGE;
  of_fiber.uc_stack.ss_size = SIZE;
  makecontext(&of_fiber, run_fiber, 0);
  swapcontext(&of_main, &of_fiber);
  std::exit(0);
}
