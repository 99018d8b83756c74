// Closures are told one by one: of two peers' either, one that two members hold once, of two in a member both.
#include <functional>
#include <memory>
#include <vector>

struct Peer {
  std::function<void()> on_read;
  int total = 0;
};
struct Window {
  std::function<void()> on_open, on_close;
  int changes = 0;
};
struct Button {
  std::vector<std::function<void()>> on_click;
  int clicks = 0;
};

int main() {
  auto first = std::make_shared<Peer>();
  auto second = std::make_shared<Peer>();
  first->on_read = [second] { second->total++; };
  second->on_read = [first] { first->total--; };
  auto window = std::make_shared<Window>();
  auto change = [window] { window->changes++; };
  window->on_open = change;
  window->on_close = change;
  auto button = std::make_shared<Button>();
  button->on_click.push_back([button] { button->clicks++; });
  button->on_click.push_back([button] { button->clicks--; });
}
