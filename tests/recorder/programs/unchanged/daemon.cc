// Becomes a daemon: its first process ends within the C library, and the new one goes on.
#include <unistd.h>

#include <cstdio>
#include <memory>

struct Node {
  std::shared_ptr<Node> next;
};

int main() {
  auto node = std::make_shared<Node>();
  node->next = node;
  if (daemon(1, 1)) return 1;
  std::puts("a daemon");
  return 5;
}
