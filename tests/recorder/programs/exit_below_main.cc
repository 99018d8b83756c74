// exit() is called below a main whose object lies in a register, as an optimizer has it. Nothing leaks. Wants g++ and -O2.
#include <cstdlib>
#include <memory>
#include <vector>

struct Session {
  std::weak_ptr<Session> itself;
};

struct App {
  std::vector<std::shared_ptr<Session>> sessions;
  std::shared_ptr<App> parent;

  __attribute__((noinline)) void prepare() {
    parent = std::make_shared<App>();
    for (int count = 0; count < 3; count++) sessions.push_back(std::make_shared<Session>());
  }
  __attribute__((noinline)) void run() {
    if (sessions.size() == 3) std::exit(0);
  }
};

// (which leaves no old bytes in the frames that live)
__attribute__((noinline)) void clear_stack() {
  volatile char bytes[4096] = {};
  bytes[0] = 1;
}

int main() {
  auto app = std::make_unique<App>();
  app->prepare();
  clear_stack();
  app->run();
}
