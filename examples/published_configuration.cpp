// A published configuration: one thread publishes new versions of it, and others read the current one.
#include <atomic>
#include <cstdio>
#include <memory>
#include <thread>

struct Configuration {
  unsigned long version;
};

std::atomic<std::shared_ptr<const Configuration>> current;
std::atomic<unsigned> older;

// Publishes so many versions, from 1 on.
void publish(unsigned long versions) {
  for (unsigned long version = 1; version <= versions; ++version)
    current.store(std::make_shared<const Configuration>(version));
}

// Reads the current version so often, and counts how often it was older than the one before.
void observe(unsigned times) {
  unsigned long seen = 0;
  for (unsigned i = 0; i < times; ++i)
    if (std::shared_ptr<const Configuration> now = current.load()) {
      older += now->version < seen;
      seen = now->version;
    }
}

int main() {
  {
    std::jthread writer(publish, 100);
    std::jthread reader(observe, 1000), another(observe, 1000);
  }
  std::printf("%u versions older than the one before\n", older.load());
}
