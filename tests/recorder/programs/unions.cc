// Unions of an owner and of a weak pointer, in each order: which it is, the counts say, and for one object nothing does.
// Beside mere bytes an owner's type is known.
#include <memory>
#include <variant>

struct Node {
  bool owns;
  union {
    std::shared_ptr<Node> strong;
    std::weak_ptr<Node> watching;
  };
  explicit Node(std::shared_ptr<Node> to) : owns(true), strong(std::move(to)) {}
  explicit Node(std::weak_ptr<Node> to) : owns(false), watching(std::move(to)) {}
  ~Node() { owns ? strong.~shared_ptr() : watching.~weak_ptr(); }
};
struct Room {
  union {
    std::shared_ptr<Room> room;
    char bytes[sizeof(std::shared_ptr<Room>)];
  };
  Room() : room() {}
  ~Room() { room.~shared_ptr(); }
};
struct Item {
  int number = 1;
};
struct Slot {
  union {
    std::shared_ptr<Item> strong;
    std::weak_ptr<Item> watching;
  };
  Slot() : strong() {}
  ~Slot() { strong.~shared_ptr(); }
};
struct Watcher {
  std::variant<std::shared_ptr<Item>, std::weak_ptr<Item>> item;
  std::shared_ptr<Watcher> self;
};
static auto& node = *new std::shared_ptr<Node>;
static auto& slot = *new std::shared_ptr<Slot>(std::make_shared<Slot>());

int main() {
  node = std::make_shared<Node>(std::shared_ptr<Node>());
  node->strong = std::make_shared<Node>(std::weak_ptr<Node>(node));
  auto room = std::make_shared<Room>();
  room->room = room;
  slot->strong = std::make_shared<Item>();
  auto watcher = std::make_shared<Watcher>();
  watcher->self = watcher;
  watcher->item = std::weak_ptr<Item>(slot->strong);
}
