// A function that takes memory for others, and first for many that are no control blocks, is told as the place.
#include <cstdlib>
#include <memory>
#include <new>

struct Node {
  std::shared_ptr<Node> next;
};
struct Arena {
  __attribute__((noinline)) static void* take(std::size_t bytes) {
    void* room = std::malloc(bytes);
    if (!room) throw std::bad_alloc();
    return room;
  }
};
template <typename T>
struct FromArena {
  using value_type = T;
  FromArena() = default;
  template <typename U>
  FromArena(const FromArena<U>&) {}
  T* allocate(std::size_t n) { return static_cast<T*>(Arena::take(n * sizeof(T))); }
  void deallocate(T* at, std::size_t) { std::free(at); }
};

int main() {
  for (long i = 1; i < 200; i++) {
    auto number = static_cast<long*>(Arena::take(40));
    *number = i;
    std::free(number);
  }
  auto node = std::allocate_shared<Node>(FromArena<Node>());
  node->next = node;
}
