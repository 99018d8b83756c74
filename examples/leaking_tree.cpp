#include <memory>
#include <vector>

struct Item {
  std::vector<std::shared_ptr<Item>> children;
  std::shared_ptr<Item> parent;
};

std::shared_ptr<Item> add(const std::shared_ptr<Item>& to) {
  auto item = std::make_shared<Item>();
  item->parent = to;
  to->children.push_back(item);
  return item;
}

int main() {
  auto root = std::make_shared<Item>();
  add(add(root));
  add(root);
}
