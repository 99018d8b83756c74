// A list that is linked by the exclusive or of two pointers: its inner owners are told as lost, and that such pointers are
// not seen.
#include <cstdint>
#include <memory>

struct Picture {
  int number = 0;
};

struct Item {
  std::shared_ptr<Picture> picture;
  std::uintptr_t both = 0;  // the item before and the next, by exclusive or
};

Item *first, *last;

std::uintptr_t number(Item* item) { return reinterpret_cast<std::uintptr_t>(item); }

void add() {
  auto picture = std::make_shared<Picture>();
  auto item = new Item{picture, number(last)};
  if (last) last->both ^= number(item);
  if (!first) first = item;
  last = item;
}

int main() {
  for (int count = 0; count < 7; count++) add();
}
