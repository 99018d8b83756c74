// A scope guard is made of nullptr and a deleter: what the deleter points to isn't its own, and nothing leaks.
#include <memory>

struct Guarded;
struct Counter {
  long count = 0;
  std::shared_ptr<Guarded> guarded;
};
struct Guarded {
  std::shared_ptr<void> guard;
};
static std::unique_ptr<Counter>& counter = *new std::unique_ptr<Counter>(new Counter);

int main() {
  Counter* it = counter.get();
  it->guarded = std::make_shared<Guarded>();
  it->guarded->guard = std::shared_ptr<void>(nullptr, [it](void*) { it->count--; });
}
