// Whether a member or a static watches: without debug information nobody knows, and it is said.
#include <memory>

struct Model {
  std::shared_ptr<Model> self;
};
auto& last = *new std::weak_ptr<Model>;

int main() {
  auto model = std::make_shared<Model>();
  model->self = model;
  last = model;
}
