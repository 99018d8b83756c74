// A cache of the 400 texts that were used last, which four threads ask.
#include <cstdio>
#include <cstdlib>
#include <list>
#include <memory>
#include <mutex>
#include <string>
#include <thread>
#include <unordered_map>
#include <vector>

using Text = std::shared_ptr<const std::string>;

class Cache {
  // The keys with their texts, the last used one first, and where each key stands there.
  std::list<std::pair<std::string, Text>> used;
  std::unordered_map<std::string, decltype(used)::iterator> places;
  std::size_t most;
  std::mutex alone;

 public:
  explicit Cache(std::size_t most) : most(most) {}

  void put(const std::string& key, Text text) {
    std::lock_guard lock(alone);
    used.emplace_front(key, std::move(text));
    if (auto it = places.find(key); it != places.end()) {
      used.erase(it->second);
      places.erase(it);
    }
    places[key] = used.begin();
    if (places.size() > most) {
      places.erase(used.back().first);
      used.pop_back();
    }
  }

  Text get(const std::string& key) {
    std::lock_guard lock(alone);
    auto it = places.find(key);
    if (it == places.end()) return nullptr;
    used.splice(used.begin(), used, it->second);
    return it->second->second;
  }

  std::size_t size() const { return places.size(); }
};

int main() {
  Cache cache(400);
  {
    std::vector<std::jthread> team;
    for (unsigned me = 0; me < 4; ++me)
      team.emplace_back([&cache, me] {
        unsigned long random = me;
        for (int turn = 0; turn < 2000; ++turn) {
          random = random * 6364136223846793005 + 1;
          auto key = "key " + std::to_string((random >> 33) % 800);
          if (auto it = cache.get(key)) {
            if (*it != "value of " + key) std::abort();
          } else {
            cache.put(key, std::make_shared<std::string>("value of " + key));
          }
        }
      });
  }
  std::printf("%zu kept\n", cache.size());
}
