// The leak is a shared library's, shared_library.part.cc.
#include <memory>

struct Plugin;
std::shared_ptr<Plugin> open_plugin(int number);

int main() {
  auto plugin = open_plugin(1);
}
