// The same by make_shared, whose control block lies behind the objects. Wants C++20.
#include <memory>

struct Part {
  int number = 0;
  std::shared_ptr<Part[]> whole;
};

int main() {
  auto parts = std::make_shared<Part[]>(4);
  parts[2].whole = parts;
}
