// A registry of live connections, by their numbers: 200,000 at one time, by four threads.
#include <atomic>
#include <cstdint>
#include <cstdio>
#include <memory>
#include <mutex>
#include <string>
#include <thread>
#include <unordered_map>
#include <vector>

struct Connection {
  std::uint64_t number;
  std::string user;
};

class Registry {
  std::mutex alone;
  std::unordered_map<std::uint64_t, std::shared_ptr<Connection>> live;

 public:
  void open(std::shared_ptr<Connection> it) {
    std::lock_guard lock(alone);
    live[it->number] = std::move(it);
  }
  std::shared_ptr<Connection> find(std::uint64_t number) {
    std::lock_guard lock(alone);
    auto it = live.find(number);
    return it == live.end() ? nullptr : it->second;
  }
  std::shared_ptr<Connection> close(std::uint64_t number) {
    std::lock_guard lock(alone);
    auto it = live.find(number);
    if (it == live.end()) return nullptr;
    auto closed = std::move(it->second);
    live.erase(it);
    return closed;
  }
};

int main() {
  Registry registry;
  std::atomic<unsigned> opened{}, found{}, closed{};
  {
    std::vector<std::jthread> team;
    for (std::uint64_t me = 0; me < 4; ++me)
      team.emplace_back([&, me] {
        for (std::uint64_t it = me; it < 200'000; it += 4) {
          registry.open(std::make_shared<Connection>(it, "user " + std::to_string(it)));
          ++opened;
        }
        for (std::uint64_t it = me; it < 200'000; it += 4)
          if (auto one = registry.find(it); one && one->number == it) ++found;
        for (std::uint64_t it = me; it < 200'000; it += 40)
          if (registry.close(it)) ++closed;
      });
  }
  std::printf("%u opened, %u found, %u closed\n", opened.load(), found.load(), closed.load());
}
