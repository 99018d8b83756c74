// Of same_names.cc.
#include <memory>

namespace {
struct Node {
  std::shared_ptr<Node> parent;
  long numbers[8] = {};
  std::shared_ptr<Node> child;
};
}  // namespace

void other_file() {
  auto node = std::make_shared<Node>();
  node->child = std::make_shared<Node>();
  node->child->parent = node;
}
