// Members of templates, and of a class in a namespace without a name.
#include <memory>
#include <string>

template <typename Value>
struct Slot {
  Value value{};
  std::shared_ptr<Slot> next;
};
namespace {
struct Hidden {
  Slot<std::shared_ptr<Hidden>> slot;
};
}  // namespace

int main() {
  auto slot = std::make_shared<Slot<std::string>>();
  slot->next = slot;
  auto hidden = std::make_shared<Hidden>();
  hidden->slot.value = hidden;
}
