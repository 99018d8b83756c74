// Circles through each other, and a knot that another one owns, with an object behind it that is in none.
#include <memory>

struct Part {
  int number = 0;
};
struct Inner {
  std::shared_ptr<Inner> other;
  std::shared_ptr<Part> part;
};
struct Outer {
  std::shared_ptr<Outer> left, right, back;
  std::shared_ptr<Inner> inner;
};

int main() {
  auto a = std::make_shared<Outer>();
  a->left = std::make_shared<Outer>();
  a->right = std::make_shared<Outer>();
  a->left->back = a;
  a->right->back = a;
  auto inner = std::make_shared<Inner>();
  inner->other = std::make_shared<Inner>();
  inner->other->other = inner;
  inner->part = std::make_shared<Part>();
  a->inner = inner;
}
