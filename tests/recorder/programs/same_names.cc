// Each of two files has its own Node in a namespace without a name: a member is told by its own file's.
#include <memory>

namespace {
struct Node {
  long number = 0;
  std::shared_ptr<Node> follower;
};
}  // namespace

void other_file();

int main() {
  auto node = std::make_shared<Node>();
  node->follower = node;
  other_file();
}
