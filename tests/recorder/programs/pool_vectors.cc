// Owners in vectors of a pool that is a static are not found: what they own is kept, and nothing is told leaked.
#include <memory>
#include <memory_resource>
#include <vector>

std::pmr::unsynchronized_pool_resource pool;

struct Node {
  std::pmr::vector<std::shared_ptr<Node>> next{&pool};
};

int main() {
  auto first = std::make_shared<Node>();
  auto second = std::make_shared<Node>();
  first->next.push_back(second);
  second->next.push_back(first);
}
