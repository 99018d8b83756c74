// Callbacks that capture an owner beside a weak pointer: which is which, the lambda's captures say.
#include <functional>
#include <memory>

struct Session {
  std::function<int()> on_read;
  int total = 0;
};

int main() {
  auto first = std::make_shared<Session>();
  auto second = std::make_shared<Session>();
  std::weak_ptr<Session> weak = second;
  first->on_read = [self = first, weak] { return self->total + int(weak.use_count()); };
  second->on_read = [weak = std::weak_ptr<Session>(first), other = std::weak_ptr<Session>(second)] {
    return int(weak.use_count() + other.use_count());
  };
}
