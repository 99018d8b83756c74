// A signal ends the program, and what its frames own is kept.
#include <signal.h>

#include <memory>

int main() {
  auto number = std::make_shared<int>(1);
  raise(SIGTERM);
}
