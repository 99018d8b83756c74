// A window that nobody freed: only its own document leads there, by a raw pointer, which owns nothing.
#include <memory>

struct Window;
struct Document {
  Window* window;
  explicit Document(Window* it) : window(it) {}
};
struct Window {
  std::shared_ptr<Document> document;
  Window() { document = std::make_shared<Document>(this); }
};
Window* volatile last;

int main() {
  last = new Window;
  last = nullptr;
}
