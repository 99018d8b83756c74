// Callbacks that call another one, which an optimizer inlines: told are the outer lambdas, and what they capture.
#include <functional>
#include <memory>

struct Log {
  int lines = 0;
};
struct Session {
  std::function<void(int)> on_data;
  int bytes = 0;
};
struct Model {
  std::function<void(int)> on_change;
  int sum = 0;
};

int main() {
  auto log = std::make_shared<Log>();
  auto write = [log](int count) { log->lines += count; };
  auto session = std::make_shared<Session>();
  session->on_data = [session, write](int count) { write(count), session->bytes += count; };
  auto model = std::make_shared<Model>();
  auto add = [model](int count) { model->sum += count; };
  model->on_change = [add](int count) { add(count); };
}
