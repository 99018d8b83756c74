// Containers that aren't std's, which hold a plain pointer to their memory: what ties a knot through them is told under the
// condition that they own it.
#include <boost/container/flat_map.hpp>
#include <boost/function.hpp>
#include <memory>

struct Session {
  boost::container::flat_map<int, std::shared_ptr<Session>> peers;
};

struct Button {
  boost::function<void()> pressed;
  char name[100] = "";
};

int main() {
  auto first = std::make_shared<Session>();
  auto second = std::make_shared<Session>();
  first->peers[1] = second;
  second->peers[1] = first;
  auto button = std::make_shared<Button>();
  long numbers[8] = {};
  button->pressed = [button, numbers] { button->name[0] = static_cast<char>(numbers[0]); };
}
