// A thread that computes with all signals blocked, so that it goes on while memory is read: its stack keeps.
#include <signal.h>

#include <atomic>
#include <memory>
#include <thread>

struct Job {
  int number = 1;
};
struct Queue {
  std::shared_ptr<Job> job = std::make_shared<Job>();
};
std::atomic<bool> started{false};
std::atomic<long> turns{0};

void compute() {
  auto queue = std::make_unique<Queue>();
  Queue* volatile mine = queue.get();
  sigset_t all;
  sigfillset(&all);
  pthread_sigmask(SIG_BLOCK, &all, nullptr);
  for (;;) {
    turns += mine->job->number;
    started = true;
  }
}

int main() {
  std::thread(compute).detach();
  while (!started) std::this_thread::yield();
}
