// Memory that only an epoll points to in which a thread waits.
#include <pthread.h>
#include <sys/epoll.h>
#include <sys/eventfd.h>
#include <unistd.h>

#include <memory>

struct Connection {
  int number = 1;
};
struct Watch {
  std::shared_ptr<Connection> connection;
};

__attribute__((noinline)) int watch() {
  int poll = epoll_create1(0), event = eventfd(0, 0);
  epoll_event it{};
  it.events = EPOLLIN;
  it.data.ptr = new Watch{std::make_shared<Connection>()};
  epoll_ctl(poll, EPOLL_CTL_ADD, event, &it);
  return poll;
}

// (which leaves no old bytes of what was called before)
__attribute__((noinline)) void clear_stack() {
  volatile char bytes[8192] = {};
  bytes[0] = 1;
}

void* wait_for_ever(void*) {
  int poll = watch();
  clear_stack();
  for (epoll_event event;;) epoll_wait(poll, &event, 1, -1);
}

int main() {
  pthread_t thread;
  pthread_create(&thread, nullptr, wait_for_ever, nullptr);
  usleep(200000);
}
