// Tasks that a queue of unique pointers owns, behind a base: the member that ties has its own class's name.
#include <memory>
#include <vector>

struct Engine;
struct Task {
  virtual ~Task() = default;
};
struct Render : Task {
  std::shared_ptr<Engine> engine;
  int frame = 0;
};
struct Engine {
  std::vector<std::unique_ptr<Task>> tasks;
};

int main() {
  auto engine = std::make_shared<Engine>();
  auto render = std::make_unique<Render>();
  render->engine = engine;
  engine->tasks.push_back(std::move(render));
}
