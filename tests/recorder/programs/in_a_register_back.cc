// The only pointer from outside to an owner lies in a register of a thread that waits in a system call, and the object points
// back: neither is called lost or leaked.
#include <pthread.h>
#include <unistd.h>

#include <memory>

struct Queue;
struct Job {
  Queue* queue = nullptr;  // which without -g might be an owner
};
struct Queue {
  std::shared_ptr<Job> job;
};
Queue* volatile handed_over;

void* wait_for_ever(void*) {
  Queue* held = handed_over;
  handed_over = nullptr;
  for (;;) {
    long result;
    asm volatile("syscall" : "=a"(result) : "a"(34L), "b"(held) : "rcx", "r11", "memory");  // pause
  }
}

__attribute__((noinline)) void hand_over() {
  auto queue = new Queue{std::make_shared<Job>()};
  queue->job->queue = queue;
  handed_over = queue;
  pthread_t thread;
  pthread_create(&thread, nullptr, wait_for_ever, nullptr);
  while (handed_over) usleep(1000);
  usleep(100000);
}

int main() { hand_over(); }
