// A pointer of the program's own, which owns by a plain one: a circle through it is told as lost, and as a knot if it owns.
#include <memory>

template <typename T>
struct Ref {
  T* pointer = nullptr;
  ~Ref() { delete pointer; }
};
struct Window;
struct Document {
  Ref<Window> window;
  ~Document();
};
struct Window {
  std::shared_ptr<Document> document;
};
Document::~Document() = default;

int main() {
  auto document = std::make_shared<Document>();
  document->window.pointer = new Window{document};
}
