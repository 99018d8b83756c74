// Of shared_library.cc.
#include <memory>
#include <vector>

struct Plugin {
  std::vector<std::shared_ptr<Plugin>> friends;
};
static std::shared_ptr<Plugin> first;

std::shared_ptr<Plugin> open_plugin(int number) {
  auto plugin = std::make_shared<Plugin>();
  if (number) plugin->friends.push_back(plugin);
  first = plugin;
  return plugin;
}
