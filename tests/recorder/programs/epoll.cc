// Memory that only the kernel points to, the data of epolls: one whose number nobody has any more, so that nobody gets at
// its data; and one whose number a static has.
#include <sys/epoll.h>
#include <sys/eventfd.h>

#include <memory>

struct Connection {
  int number = 1;
};
struct Watch {
  std::shared_ptr<Connection> connection;
};
struct Loop {
  short kind = 2;
  int poll = 0;
};

Loop loop;

int watch() {
  int poll = epoll_create1(0), event = eventfd(0, 0);
  epoll_event it{};
  it.events = EPOLLIN;
  auto connection = std::make_shared<Connection>();
  it.data.ptr = new Watch{connection};
  epoll_ctl(poll, EPOLL_CTL_ADD, event, &it);
  return poll;
}

void watch_and_forget() { watch(); }
void watch_and_keep() { loop.poll = watch(); }

int main() {
  watch_and_forget();
  watch_and_keep();
}
