// Leaks, says that it is busy, and makes objects for ever, at many places on the stack.
#include <cstdio>
#include <cstdlib>
#include <memory>
#include <thread>

struct Node {
  std::shared_ptr<Node> next;
};

__attribute__((noinline)) static void leak() {
  auto node = std::make_shared<Node>();
  node->next = node;
}

__attribute__((noinline)) static int make_deep(int depth, int way) {
  if (!depth) {
    auto node = std::make_shared<Node>();
    void* room = std::aligned_alloc(64, 64);
    std::free(room);
    return room != nullptr && node;
  }
  volatile char rest[64] = {};
  rest[way % 64] = 1;
  return make_deep(depth - 1, way / 2) + (way % 2 ? make_deep(0, 0) : 0) + rest[way % 64];
}

int main() {
  std::thread(leak).join();  // (old pointers lie on its stack alone)
  std::puts("busy");
  std::fflush(stdout);
  for (int way = 0;; way++) make_deep(12, way);
}
