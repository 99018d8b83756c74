// The owner lies in a part that a plain pointer holds, which was made before the object had a shared pointer: what ties the
// knot is told under the condition that it owns.
#include <memory>

class Window;
struct Details {
  int width = 0;
  std::shared_ptr<Window> parent;
};
class Window {
public:
  Details* details = new Details;
  std::shared_ptr<Window> child;
  ~Window() { delete details; }
};

int main() {
  std::shared_ptr<Window> window(new Window);
  std::shared_ptr<Window> child(new Window);
  window->child = child;
  child->details->parent = window;
}
