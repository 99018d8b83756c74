// Asks malloc what it has given, and for memory that isn't empty. It leaks one object.
#include <malloc.h>

#include <cstdio>
#include <cstdlib>
#include <memory>

struct Node {
  std::shared_ptr<Node> next;
};

void leak() {
  auto node = std::make_shared<Node>();
  node->next = node;
}

void tell(const char* what, const void* memory, std::size_t at) {
  std::printf("%s %02x\n", what, static_cast<const unsigned char*>(memory)[at]);
}

void tell_fresh_memory() {
  tell("small", std::malloc(50), 49);
  tell("large", std::malloc(5000), 4999);
  tell("mapped", std::malloc(1 << 20), 1 << 19);
  tell("aligned", std::aligned_alloc(64, 640), 639);
  tell("empty", std::calloc(5, 100), 499);
}

int main() {
  leak();
  auto numbers = std::make_unique<int[]>(100);
  auto given = mallinfo2();
  std::printf("in use %zu, of %zu, mapped %zu\n", given.uordblks, given.arena, given.hblkhd);
  mallopt(M_PERTURB, 0x5a);
  tell_fresh_memory();
}
