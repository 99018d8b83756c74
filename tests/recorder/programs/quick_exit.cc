// quick_exit: statics live still.
#include <cstdlib>
#include <memory>
#include <thread>

struct Node {
  std::shared_ptr<Node> next;
};
std::shared_ptr<Node> in_static = std::make_shared<Node>();

void leak() {
  auto leaked = std::make_shared<Node>();
  leaked->next = leaked;
}

int main() {
  std::thread(leak).join();  // (which leaves no old bytes in frames that live)
  std::quick_exit(0);
}
