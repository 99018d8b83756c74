// An object on a cache line of its own.
#include <memory>

struct alignas(64) Counter {
  long count = 0;
  std::shared_ptr<Counter> next;
};

int main() {
  auto a = std::make_shared<Counter>();
  auto b = std::shared_ptr<Counter>(new Counter);
  a->next = b;
  b->next = a;
}
