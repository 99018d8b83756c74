// A tree whose items own their parent.
#include <memory>
#include <string>
#include <vector>

struct Item {
  std::string name;
  std::vector<std::shared_ptr<Item>> children;
  std::shared_ptr<Item> parent;
  explicit Item(std::string n) : name(std::move(n)) {}
};

std::shared_ptr<Item> add(const std::shared_ptr<Item>& to, std::string name) {
  auto item = std::make_shared<Item>(std::move(name));
  item->parent = to;
  to->children.push_back(item);
  return item;
}

int main() {
  auto root = std::make_shared<Item>("root");
  for (int i = 0; i < 3; i++) {
    auto child = add(root, "a child with a long enough name " + std::to_string(i));
    add(child, "grandchild");
  }
}
