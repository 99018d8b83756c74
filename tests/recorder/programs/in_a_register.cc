// The only pointer to an owner lies in a register of a thread that waits in a system call: it is not called lost.
#include <pthread.h>
#include <unistd.h>

#include <memory>

struct Job {
  int number = 1;
};
struct Queue {
  std::shared_ptr<Job> job;
};
Queue* volatile handed_over;

void* wait_for_ever(void*) {
  Queue* held = handed_over;
  handed_over = nullptr;
  for (;;) {
    long result;
    asm volatile("syscall" : "=a"(result) : "a"(34L), "b"(held) : "rcx", "r11", "memory");  // pause
  }
}

__attribute__((noinline)) void hand_over() {
  handed_over = new Queue{std::make_shared<Job>()};
  pthread_t thread;
  pthread_create(&thread, nullptr, wait_for_ever, nullptr);
  while (handed_over) usleep(1000);
  usleep(100000);
}

int main() { hand_over(); }
