// Windows that unique pointers own, of which their documents know by raw pointers: these tie nothing.
#include <memory>
#include <vector>

struct Document;
struct Window {
  std::shared_ptr<Document> document;
};
struct Document {
  Window* window = nullptr;
  explicit Document(Window* it) : window(it) {}
};
struct Application {
  std::vector<std::unique_ptr<Window>> windows;
};
auto& kept = *new std::shared_ptr<Application>(std::make_shared<Application>());

int main() {
  for (int i = 0; i < 3; i++) {
    kept->windows.push_back(std::make_unique<Window>());
    Window* window = kept->windows.back().get();
    window->document = std::make_shared<Document>(window);
  }
}
