// main ends by pthread_exit, and the last thread ends the program.
#include <pthread.h>

#include <memory>
#include <thread>

struct Node {
  std::shared_ptr<Node> next;
};

void leak() {
  auto node = std::make_shared<Node>();
  node->next = node;
}

int main() {
  std::thread(leak).detach();
  pthread_exit(nullptr);
}
