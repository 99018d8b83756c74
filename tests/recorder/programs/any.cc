// An owner in an any.
#include <any>
#include <memory>

struct Event {
  std::any payload;
};

int main() {
  auto event = std::make_shared<Event>();
  event->payload = event;
}
