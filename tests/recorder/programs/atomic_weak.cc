// Atomic weak pointers keep nothing; an owner beside them does. Wants C++20.
#include <atomic>
#include <memory>

struct Config {
  std::atomic<std::weak_ptr<Config>> origin;
  std::shared_ptr<Config> next;
};

int main() {
  auto a = std::make_shared<Config>();
  auto b = std::make_shared<Config>();
  a->next = b;
  b->origin.store(a);
  auto c = std::make_shared<Config>();
  c->origin.store(c);
  c->next = c;
}
