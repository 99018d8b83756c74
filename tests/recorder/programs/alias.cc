// A pointer to a part of an object keeps the whole of it.
#include <memory>

struct Engine {
  std::shared_ptr<int> speed;
};
struct Car {
  int speed = 0;
  std::shared_ptr<Engine> engine;
};

int main() {
  auto car = std::make_shared<Car>();
  car->engine = std::make_shared<Engine>();
  car->engine->speed = std::shared_ptr<int>(car, &car->speed);
}
