// What a member points to has no virtual functions, but its first member has: what lies behind that is told by the name of
// the whole.
#include <memory>

struct Document;

struct Signal {
  virtual ~Signal() = default;
  std::shared_ptr<Document> sender;
};

struct Private {
  Signal changed;
  std::shared_ptr<Document> document;
};

struct Document {
  std::unique_ptr<Private> own = std::make_unique<Private>();
};

int main() {
  auto made = std::make_shared<Document>();
  made->own->document = made;
}
