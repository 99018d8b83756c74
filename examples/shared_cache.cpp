// A cache that threads share: it knows the values of 10,000 keys by weak pointers, as long as some thread has them.
#include <array>
#include <atomic>
#include <cstdint>
#include <cstdio>
#include <memory>
#include <mutex>
#include <string>
#include <thread>
#include <unordered_map>

struct Value {
  std::string text;
  std::atomic<unsigned> reads{};
};

class Cache {
  std::mutex alone;
  std::unordered_map<std::uint64_t, std::weak_ptr<Value>> known;

 public:
  // The value of a key, a new one where nobody has it any more.
  std::shared_ptr<Value> get(std::uint64_t key) {
    std::lock_guard lock(alone);
    std::weak_ptr<Value>& entry = known[key];
    std::shared_ptr<Value> value = entry.lock();
    if (!value) {
      value = std::make_shared<Value>("value of " + std::to_string(key));
      entry = value;
    }
    return value;
  }
};

Cache cache;
std::atomic<unsigned> gets;

// Asks for 100,000 values by keys of a row of random numbers, and has the last 1,000.
void ask(std::uint64_t random) {
  std::array<std::shared_ptr<Value>, 1'000> held;
  for (unsigned turn = 0; turn < 100'000; ++turn) {
    random = random * 6'364'136'223'846'793'005 + 1'442'695'040'888'963'407;
    auto& value = held[turn % held.size()];
    value = cache.get((random >> 33) % 10'000);
    ++value->reads;
    ++gets;
  }
}

int main() {
  {
    std::jthread one(ask, 0), two(ask, 1), three(ask, 2);
  }
  std::printf("%u values were got\n", gets.load());
}
