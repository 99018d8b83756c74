// Memory that the program mapped itself: an owner there keeps, and an object there is told without its place.
#include <sys/mman.h>

#include <memory>
#include <new>

struct Node {
  std::shared_ptr<Node> next;
};
template <typename T>
struct Mapped {
  using value_type = T;
  Mapped() = default;
  template <typename U>
  Mapped(const Mapped<U>&) {}
  T* allocate(std::size_t n) {
    return static_cast<T*>(mmap(nullptr, n * sizeof(T), PROT_READ | PROT_WRITE, MAP_PRIVATE | MAP_ANONYMOUS, -1, 0));
  }
  void deallocate(T* at, std::size_t n) { munmap(at, n * sizeof(T)); }
};

int main() {
  void* room = mmap(nullptr, 4096, PROT_READ | PROT_WRITE, MAP_PRIVATE | MAP_ANONYMOUS, -1, 0);
  new (room) std::shared_ptr<Node>(std::make_shared<Node>());
  auto there = std::allocate_shared<Node>(Mapped<Node>());
  there->next = there;
}
