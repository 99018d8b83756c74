// The owner lies in a part that a unique_ptr holds.
#include <memory>

class Window;
struct Details {
  int width = 0;
  std::shared_ptr<Window> parent;
};
class Window {
public:
  std::unique_ptr<Details> details = std::make_unique<Details>();
  std::shared_ptr<Window> child;
};

int main() {
  auto window = std::make_shared<Window>();
  window->child = std::make_shared<Window>();
  window->child->details->parent = window;
}
