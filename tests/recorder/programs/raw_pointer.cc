// Leaked, but a raw pointer leads there: it is told, and is no alarm.
#include <memory>
#include <vector>

struct Node {
  std::shared_ptr<Node> next;
};
Node* last_seen;
struct Index {
  std::vector<Node*> nodes;
};
Index* never_freed = new Index;

int main() {
  auto a = std::make_shared<Node>();
  a->next = std::make_shared<Node>();
  a->next->next = a;
  last_seen = a.get();
  auto b = std::make_shared<Node>();
  b->next = b;
  never_freed->nodes.push_back(b.get());
}
