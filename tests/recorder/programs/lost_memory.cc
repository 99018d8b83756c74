// An owner in memory that nobody freed and nothing points to.
#include <memory>

struct Picture {
  int width = 0;
};
struct Frame {
  std::shared_ptr<Picture> picture;
};
Frame* volatile last;

void forget() {
  auto picture = std::make_shared<Picture>();
  last = new Frame{std::move(picture)};
  last = nullptr;
}

int main() {
  forget();
  forget();
}
