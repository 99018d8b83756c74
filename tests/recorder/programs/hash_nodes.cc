// Entries that know their place in the hashed container that owns them: an iterator owns nothing.
#include <memory>
#include <string>
#include <unordered_map>

struct Entry;
using Table = std::unordered_map<std::string, std::shared_ptr<Entry>>;
struct Cache {
  Table entries;
};
struct Entry {
  Table::iterator place;
  std::shared_ptr<Cache> cache;
};
auto& kept = *new std::shared_ptr<Cache>(std::make_shared<Cache>());

int main() {
  for (int i = 0; i < 20; i++) {
    auto entry = std::make_shared<Entry>();
    entry->place = kept->entries.emplace("an entry with a long enough name " + std::to_string(i), entry).first;
    entry->cache = kept;
  }
}
