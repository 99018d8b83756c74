// A member that is a reference to what a unique pointer of its owner owns.
#include <memory>
#include <string>

struct Part;
struct Engine {
  std::string name = "an engine with a name that is long enough for the heap";
  std::shared_ptr<Part> part;
};
struct Part {
  Engine& engine;
  explicit Part(Engine& it) : engine(it) {}
};
struct Car {
  std::unique_ptr<Engine> engine = std::make_unique<Engine>();
};

int main() {
  static auto& kept = *new std::shared_ptr<Car>(std::make_shared<Car>());
  kept->engine->part = std::make_shared<Part>(*kept->engine);
}
