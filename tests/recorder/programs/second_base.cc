// Objects behind second bases: with an allocator that takes no room, with one that has a state, and with a deleter.
#include <memory>

struct Named {
  virtual ~Named() = default;
  long length = 0;
};
struct Node {
  virtual ~Node() = default;
  std::shared_ptr<Node> next;
};
struct Both : Named, Node {
  int number = 0;
};
template <typename T, typename State>
struct Allocator : State {
  using value_type = T;
  template <typename U>
  struct rebind {
    using other = Allocator<U, State>;
  };
  Allocator() = default;
  template <typename U>
  Allocator(const Allocator<U, State>&) {}
  T* allocate(std::size_t n) { return std::allocator<T>().allocate(n); }
  void deallocate(T* at, std::size_t n) { std::allocator<T>().deallocate(at, n); }
  bool operator==(const Allocator&) const { return true; }
  bool operator!=(const Allocator&) const { return false; }
};
struct Nothing {};
struct Something {
  void* room[2] = {};
};

int main() {
  std::shared_ptr<Node> first = std::allocate_shared<Both>(Allocator<Both, Nothing>());
  first->next = first;
  std::shared_ptr<Node> second = std::allocate_shared<Both>(Allocator<Both, Something>());
  second->next = second;
  std::shared_ptr<Node> third(new Both, [](Node* it) { delete it; });
  third->next = third;
}
