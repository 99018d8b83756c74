// Objects that give themselves, and a timer that keeps one. Stripped, the ring leaks whichever of its words watches.
#include <functional>
#include <memory>
#include <vector>

struct Timer {
  std::vector<std::function<void()>> calls;
};

struct Client : std::enable_shared_from_this<Client> {
  std::shared_ptr<Timer> timer;
  int retries = 0;
  Client() { timer = std::make_shared<Timer>(); }
  void start() {
    timer->calls.push_back([self = shared_from_this()] { self->retries++; });
  }
};

int main() {
  auto first = std::make_shared<Client>();
  first->start();
  auto idle = std::make_shared<Client>();
}
