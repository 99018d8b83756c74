// Members that are arrays.
#include <array>
#include <memory>

struct Cell {
  std::shared_ptr<Cell> plain[3];
  std::array<std::shared_ptr<Cell>, 3> library;
};

int main() {
  auto a = std::make_shared<Cell>();
  a->plain[1] = a;
  auto b = std::make_shared<Cell>();
  b->library[2] = b;
}
