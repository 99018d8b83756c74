// Atomic owners, one of them in a static. Wants C++20.
#include <atomic>
#include <memory>

struct Config {
  std::atomic<std::shared_ptr<Config>> previous;
};
std::atomic<std::shared_ptr<Config>> current;

int main() {
  current.store(std::make_shared<Config>());
  auto a = current.load();
  auto b = std::make_shared<Config>();
  a->previous.store(b);
  b->previous.store(a);
}
