// Objects in a buffer that is no memory of malloc are counted, and what they own is kept.
#include <memory>
#include <memory_resource>

struct Node {
  std::shared_ptr<Node> next;
};
char buffer[4096];

int main() {
  static auto memory = new std::pmr::monotonic_buffer_resource(buffer, sizeof buffer);
  auto node = std::allocate_shared<Node>(std::pmr::polymorphic_allocator<Node>(memory));
  node->next = node;
  auto other = std::make_shared<Node>();
  other->next = node;
  other->next->next = other;
}
