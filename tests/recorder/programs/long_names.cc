// Long names of templates, shortened everywhere alike.
#include <functional>
#include <map>
#include <memory>
#include <string>
#include <vector>

template <typename Key, typename Value, typename Order>
struct Index {
  std::map<Key, std::shared_ptr<Value>, Order> entries;
  std::shared_ptr<Index> self;
  static std::shared_ptr<Index> made() { return std::make_shared<Index>(); }
};
using Names = std::vector<std::string>;

int main() {
  auto index = Index<std::string, std::map<std::string, Names>, std::less<std::string>>::made();
  index->self = index;
}
