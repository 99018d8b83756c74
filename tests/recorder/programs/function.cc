// A handler that captures its own session; beside it one that captures a weak pointer.
#include <functional>
#include <memory>

struct Session {
  std::function<void(int)> on_read;
  int total = 0;
};

int main() {
  auto session = std::make_shared<Session>();
  session->on_read = [session](int n) { session->total += n; };
  auto sound = std::make_shared<Session>();
  std::weak_ptr<Session> weak = sound;
  sound->on_read = [weak](int n) {
    if (auto it = weak.lock()) it->total += n;
  };
  session->on_read(1);
  sound->on_read(1);
}
