// A scene tree: a node owns its first child and its next sibling, and knows its parent by a weak pointer.
#include <atomic>
#include <cstdio>
#include <memory>

struct Node {
  unsigned long name;
  std::atomic<std::shared_ptr<Node>> first{}, next{};
  std::atomic<std::weak_ptr<Node>> up{};
};

// The deleter: says that the node ends, after what it alone owned.
void end(Node* node) {
  unsigned long name = node->name;
  delete node;
  std::printf("%lu ends\n", name);
}

// A new child of the root, before the others.
void add_child(const std::shared_ptr<Node>& root, unsigned long name) {
  std::shared_ptr<Node> child(new Node{name}, end);
  child->up.store(root);
  child->next.store(root->first.load());
  root->first.store(std::move(child));
}

// Says what the parent of the kept node is.
void tell_parent(const std::shared_ptr<Node>& kept) {
  if (std::shared_ptr<Node> parent = kept->up.load().lock())
    std::printf("%lu has the parent %lu\n", kept->name, parent->name);
  else
    std::printf("%lu has no parent\n", kept->name);
}

int main() {
  std::shared_ptr<Node> root(new Node{100}, end);
  for (unsigned long name = 1; name <= 4; ++name) add_child(root, name);
  std::shared_ptr<Node> kept = root->first.load()->next.load();
  tell_parent(kept);
  root.reset();
  tell_parent(kept);
  kept.reset();
}
