// A pointer with a tag in its upper sixteen bits leads where it leads.
#include <cstdint>
#include <memory>

struct Value {
  int number = 1;
};
struct Holder {
  std::shared_ptr<Value> value;
};
std::uintptr_t tagged;

int main() {
  auto holder = new Holder{std::make_shared<Value>()};
  tagged = reinterpret_cast<std::uintptr_t>(holder) | std::uintptr_t(0x5A17) << 48;
}
