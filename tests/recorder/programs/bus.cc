// A bus that is never freed watches by weak captures, beside a session that captures itself: the lambdas say which.
#include <functional>
#include <memory>
#include <string>
#include <vector>

struct Session {
  std::function<void()> on_read;
  int total = 0;
  std::string name = "x";
};
struct Bus {
  std::vector<std::function<void()>> handlers;
};
auto& bus = *new Bus;

std::shared_ptr<Session> make() { return std::make_shared<Session>(); }

int main() {
  auto session = make();
  bus.handlers.push_back([weak = std::weak_ptr<Session>(session)] {
    if (auto it = weak.lock()) it->total++;
  });
  session->on_read = [self = session, n = 7] { self->total += n; };
}
