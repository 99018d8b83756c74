// A pointer to an array of objects, one of which owns the array.
#include <memory>

struct Part {
  int number = 0;
  std::shared_ptr<Part[]> whole;
};

int main() {
  std::shared_ptr<Part[]> parts(new Part[4]);
  parts[2].whole = parts;
}
