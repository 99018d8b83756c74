// An optional member, and one that was emptied and leaves old bytes.
#include <memory>
#include <optional>

struct Request {
  std::optional<std::shared_ptr<Request>> retry, last;
};

int main() {
  auto a = std::make_shared<Request>();
  a->retry = a;
  auto b = std::make_shared<Request>();
  b->last = b;
  b->last.reset();
}
