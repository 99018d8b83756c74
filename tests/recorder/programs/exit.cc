// exit from the depth: the frames below it live, and so does what they own. The leak is a thread's, which leaves no old
// bytes in these frames.
#include <cstdlib>
#include <memory>
#include <thread>

struct Node {
  std::shared_ptr<Node> next;
};

void leak() {
  auto leaked = std::make_shared<Node>();
  leaked->next = leaked;
}

__attribute__((noinline)) int deep(std::shared_ptr<Node>& node, int depth) {
  if (!depth) std::exit(5);
  return deep(node, depth - 1) + static_cast<int>(node.use_count());
}

int main() {
  auto alive = std::make_shared<Node>();
  alive->next = std::make_shared<Node>();
  std::thread(leak).join();
  return deep(alive, 10);
}
