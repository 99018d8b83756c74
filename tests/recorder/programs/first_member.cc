// Classes without virtual functions whose first member has some are told by their own names, however they were made. One
// that is made by a pointer to its base is told as what it is.
#include <memory>
#include <sstream>
#include <stdexcept>

template <typename Value>
struct Log {
  std::ostringstream text;
  std::shared_ptr<Log> next;
  Value value;
};

struct Failure {
  std::runtime_error what{"nothing"};
  std::shared_ptr<Failure> cause;
};

struct Shape {
  virtual ~Shape() = default;
};

struct Circle : Shape {
  std::shared_ptr<Shape> inner;
};

Shape* circle() { return new Circle; }

int main() {
  auto made = std::make_shared<Log<Failure>>();
  made->next = made;
  std::shared_ptr<Failure> owned(new Failure);
  owned->cause = owned;
  std::shared_ptr<Log<int>> deleted(new Log<int>, [](Log<int>* log) { delete log; });
  deleted->next = deleted;
  std::shared_ptr<Shape> shape(circle());
  static_cast<Circle*>(shape.get())->inner = shape;
}
