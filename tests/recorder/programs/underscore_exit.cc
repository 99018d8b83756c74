// _exit: statics and frames live still. An optimizer may keep the local owner in a register, where nobody finds it.
#include <unistd.h>

#include <memory>

struct Node {
  std::shared_ptr<Node> next;
};
std::shared_ptr<Node> in_static = std::make_shared<Node>();

int main() {
  auto local = std::make_shared<Node>();
  local->next = in_static;
  _exit(static_cast<int>(local.use_count()));
}
