// err ends the program inside the C library: the frames below it live, and what they own is kept.
#include <err.h>

#include <memory>

struct Node {
  std::shared_ptr<Node> next;
};

__attribute__((noinline)) int deep(std::unique_ptr<std::shared_ptr<Node>>& node, int depth) {
  if (!depth) errx(5, "as it should");
  return deep(node, depth - 1) + static_cast<int>(node->use_count());
}

int main() {
  auto alive = std::make_unique<std::shared_ptr<Node>>(std::make_shared<Node>());
  (*alive)->next = std::make_shared<Node>();
  return deep(alive, 10);
}
