// Objects in memory that an allocator gives out of one piece.
#include <memory>
#include <memory_resource>

struct Node {
  std::shared_ptr<Node> next;
  int number = 0;
};

int main() {
  static auto memory = new std::pmr::monotonic_buffer_resource(4096);
  std::pmr::polymorphic_allocator<Node> allocator(memory);
  auto a = std::allocate_shared<Node>(allocator);
  auto b = std::allocate_shared<Node>(allocator);
  a->next = b;
  b->next = a;
}
