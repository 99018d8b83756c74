// The commonest singleton, which is never freed: what it owns knows it by a raw pointer.
#include <memory>

struct Manager;
struct Service {
  Manager* manager;
  explicit Service(Manager* it) : manager(it) {}
};
struct Manager {
  std::shared_ptr<Service> service = std::make_shared<Service>(this);
  static Manager& instance() {
    static Manager* it = new Manager;
    return *it;
  }
};

int main() { return Manager::instance().service->manager == nullptr; }
