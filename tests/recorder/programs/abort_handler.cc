// A handler of SIGABRT ends the program by exit: the frames below it live, and what they own is kept.
#include <signal.h>

#include <cstdlib>
#include <memory>

struct Node {
  std::shared_ptr<Node> next;
};

static void end(int) { std::exit(5); }

__attribute__((noinline)) static long deep(std::unique_ptr<std::shared_ptr<Node>>& node, int depth) {
  if (!depth) std::abort();
  return deep(node, depth - 1) + node->use_count();
}

int main() {
  signal(SIGABRT, end);
  auto alive = std::make_unique<std::shared_ptr<Node>>(std::make_shared<Node>());
  (*alive)->next = std::make_shared<Node>();
  return static_cast<int>(deep(alive, 10));
}
