// A member of a base, in objects of several classes; no single member suffices.
#include <memory>

struct Hub;
struct Base {
  std::shared_ptr<Hub> hub;
};
struct One : Base {
  int number = 1;
};
struct Two : Base {};
struct Hub {
  std::shared_ptr<One> one;
  std::shared_ptr<Two> two;
  std::shared_ptr<Hub> peer;
};

int main() {
  auto hub = std::make_shared<Hub>();
  auto other = std::make_shared<Hub>();
  hub->one = std::make_shared<One>();
  hub->two = std::make_shared<Two>();
  hub->one->hub = hub;
  hub->two->hub = hub;
  hub->peer = other;
  other->peer = hub;
}
