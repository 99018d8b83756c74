// An owner that was overwritten without a destructor: the object is not called leaked, as an owner was not found.
#include <cstring>
#include <memory>

struct Node {
  std::shared_ptr<Node> next;
};

int main() {
  auto a = std::make_shared<Node>();
  auto lost = new std::shared_ptr<Node>(a);
  std::memset(static_cast<void*>(lost), 0, sizeof *lost);
  a->next = a;
}
