// The classic leak of an asynchronous program: a connection owns the reactor, in which an operation waits that owns the
// connection. The kernel's epoll leads there too, and nobody waits in it any more.
#include <sys/epoll.h>
#include <sys/eventfd.h>

#include <memory>

struct Connection;

struct Operation {
  std::shared_ptr<Connection> connection;
};

struct Reactor {
  int poll = epoll_create1(0);
  Operation* waiting = nullptr;  // owned

  void wait(Operation* operation) {
    epoll_event it{};
    it.events = EPOLLIN;
    it.data.ptr = waiting = operation;
    epoll_ctl(poll, EPOLL_CTL_ADD, eventfd(0, 0), &it);
  }
  ~Reactor() { delete waiting; }
};

struct Connection {
  std::shared_ptr<Reactor> reactor;
};

int main() {
  auto connection = std::make_shared<Connection>();
  connection->reactor = std::make_shared<Reactor>();
  connection->reactor->wait(new Operation{connection});
}
