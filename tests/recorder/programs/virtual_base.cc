// An owner in a virtual base, which two bases share.
#include <memory>

struct Stream {
  std::shared_ptr<Stream> tied;
  virtual ~Stream() = default;
};
struct Input : virtual Stream {
  int read = 0;
};
struct Output : virtual Stream {
  int written = 0;
};
struct File : Input, Output {
  std::shared_ptr<File> copy;
};

int main() {
  auto file = std::make_shared<File>();
  file->tied = file;
  auto other = std::make_shared<File>();
  other->copy = other;
}
