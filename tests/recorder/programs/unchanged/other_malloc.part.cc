// A library with a malloc and an operator new of its own, as those of tcmalloc and jemalloc.
#include <malloc.h>
#include <stdlib.h>
#include <string.h>

#include <atomic>
#include <cstddef>
#include <new>

namespace {

alignas(16) char room[64 << 20];
std::atomic<std::size_t> used{0};

// Before each piece lies its size; the pieces are marked, so that others are told apart.
struct Head {
  std::size_t size, mark;
};
constexpr std::size_t MARK = 0x6d61726b;

void* take(std::size_t size) {
  std::size_t at = used.fetch_add((sizeof(Head) + size + 15) & ~std::size_t(15));
  auto head = reinterpret_cast<Head*>(room + at);
  *head = {size, MARK};
  return head + 1;
}

Head* head_of(void* memory) {
  auto head = static_cast<Head*>(memory) - 1;
  bool is_mine = static_cast<char*>(memory) > room && static_cast<char*>(memory) < room + sizeof room;
  if (!is_mine || head->mark != MARK) abort();
  return head;
}

}  // namespace

extern "C" {
void* malloc(std::size_t size) { return take(size); }
void free(void* memory) {
  if (memory) head_of(memory)->mark = 0;
}
void* calloc(std::size_t count, std::size_t size) { return take(count * size); }
void* realloc(void* memory, std::size_t size) {
  void* other = take(size);
  if (!memory) return other;
  std::size_t before = head_of(memory)->size;
  memcpy(other, memory, before < size ? before : size);
  free(memory);
  return other;
}
std::size_t malloc_usable_size(void* memory) { return memory ? head_of(memory)->size : 0; }
}

void* operator new(std::size_t size) { return take(size); }
void operator delete(void* memory) noexcept { free(memory); }
void operator delete(void* memory, std::size_t) noexcept { free(memory); }
