// Values of maps, in pairs and in vectors.
#include <map>
#include <memory>
#include <string>
#include <vector>

struct User;
struct Registry {
  std::map<std::string, std::shared_ptr<User>> by_name;
  std::map<int, std::vector<std::pair<int, std::shared_ptr<User>>>> by_age;
};
struct User {
  std::shared_ptr<Registry> registry;
};

int main() {
  auto registry = std::make_shared<Registry>();
  for (int i = 0; i < 4; i++) {
    auto user = std::make_shared<User>();
    user->registry = registry;
    registry->by_name["a name that is long enough for the heap " + std::to_string(i)] = user;
    registry->by_age[i / 2].push_back({i, user});
  }
}
