// Two knots of different members, and many of one kind.
#include <memory>

struct Man;
struct Wife {
  std::shared_ptr<Man> husband;
};
struct Man {
  std::shared_ptr<Wife> wife;
};
struct Loop {
  std::shared_ptr<Loop> self;
};

int main() {
  auto man = std::make_shared<Man>();
  auto wife = std::make_shared<Wife>();
  man->wife = wife;
  wife->husband = man;
  for (int i = 0; i < 50; i++) {
    auto loop = std::make_shared<Loop>();
    loop->self = loop;
  }
}
