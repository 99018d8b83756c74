// A doubly linked list.
#include <memory>
struct Link { std::shared_ptr<Link> next, prev; };
int main() {
  auto last = std::make_shared<Link>();
  for (int i = 0; i < 2; i++) { auto link = std::make_shared<Link>();
    last->next = link;
    link->prev = last;
    last = link;
  }
}
