// A signal's handler calls exit on a stack of its own: what main's frame owns is kept.
#include <signal.h>

#include <cstdlib>
#include <memory>
#include <vector>

struct Job {
  int number = 0;
};

void handle(int) { std::exit(0); }

int main() {
  stack_t other{};
  other.ss_size = 64 << 10;
  other.ss_sp = std::malloc(other.ss_size);
  sigaltstack(&other, nullptr);
  struct sigaction action {};
  action.sa_handler = handle;
  action.sa_flags = SA_ONSTACK;
  sigaction(SIGUSR1, &action, nullptr);
  std::vector<std::shared_ptr<Job>> jobs{std::make_shared<Job>(), std::make_shared<Job>()};
  raise(SIGUSR1);
  return jobs.front()->number;
}
