// Two objects own each other.
#include <memory>

struct Node {
  std::shared_ptr<Node> child;
  std::shared_ptr<Node> parent;
};

int main() {
  auto parent = std::make_shared<Node>();
  auto child = std::make_shared<Node>();
  parent->child = child;
  child->parent = parent;
}
