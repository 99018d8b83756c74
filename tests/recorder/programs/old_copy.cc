// An owner in more memory than is searched, and its old bytes in a leaked object: it isn't called leaked. One in memory
// of which most was never written to is found.
#include <sys/mman.h>

#include <cstring>
#include <memory>
#include <new>

struct Kept {
  int number = 1;
};
struct Message {
  std::shared_ptr<Message> next;
  char bytes[64] = {};
};

std::shared_ptr<Kept>* owner_in(int megabytes) {
  int both = PROT_READ | PROT_WRITE, how = MAP_PRIVATE | MAP_ANONYMOUS | MAP_NORESERVE;
  static void* room;  // (the last one)
  room = mmap(nullptr, std::size_t(megabytes) << 20, both, how, -1, 0);
  return new (room) std::shared_ptr<Kept>(std::make_shared<Kept>());
}

int main() {
  auto far = owner_in(600), large = owner_in(300);
  for (long page = 1; page < 300 << 8; page++) reinterpret_cast<char*>(large)[page << 12] = 1;
  auto message = std::make_shared<Message>();
  message->next = message;
  std::memcpy(message->bytes, static_cast<void*>(far), sizeof *far);
  std::memcpy(message->bytes + sizeof *far, static_cast<void*>(large), sizeof *large);
}
