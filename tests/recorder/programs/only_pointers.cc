// The only pointers to owners lie where neither malloc nor a library has memory, or point past the end.
#include <sys/mman.h>
#include <unistd.h>

#include <cstdint>
#include <cstdlib>
#include <memory>

struct Job {
  int number = 1;
};
struct Session {
  std::shared_ptr<Job> job = std::make_shared<Job>();
  long rest[2] = {};
};
constexpr std::size_t PAGE = 4096, ROOM = 64 << 20;

void put(void* room) { static_cast<Session**>(room)[20] = new Session; }

void* mapped(std::size_t size, int rights, int how, int file = -1) { return mmap(nullptr, size, rights, how, file, 0); }

// Where malloc has room for a thread it is at such an address, too.
void* at_a_multiple() {
  auto all = reinterpret_cast<std::uintptr_t>(mapped(2 * ROOM, PROT_NONE, MAP_PRIVATE | MAP_ANONYMOUS | MAP_NORESERVE));
  auto room = reinterpret_cast<void*>((all + ROOM - 1) & ~(ROOM - 1));
  mprotect(room, PAGE, PROT_READ | PROT_WRITE);
  return room;
}

Session* end_of_sessions;

int main() {
  constexpr int BOTH = PROT_READ | PROT_WRITE;
  int file = memfd_create("sessions", 0);
  if (ftruncate(file, PAGE)) return 1;
  put(mapped(PAGE, BOTH, MAP_SHARED | MAP_ANONYMOUS));
  put(mapped(PAGE, BOTH, MAP_SHARED, file));
  put(sbrk(PAGE));
  put(at_a_multiple());
  void* large = std::malloc(1 << 20);  // which the kernel may put beside what follows
  put(mapped(PAGE, BOTH, MAP_PRIVATE | MAP_ANONYMOUS));
  end_of_sessions = new Session[3] + 3;
  std::exit(large == nullptr);
}
