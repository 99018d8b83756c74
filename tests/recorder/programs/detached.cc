// A detached thread still runs at the end, and owns an object; beside it a leak.
#include <semaphore.h>

#include <memory>
#include <thread>

struct Node {
  std::shared_ptr<Node> next;
};
sem_t started, never;

void wait_for_ever(std::shared_ptr<Node> mine) {
  std::shared_ptr<Node> again = mine->next;
  sem_post(&started);
  sem_wait(&never);
}

int main() {
  sem_init(&started, 0, 0);
  sem_init(&never, 0, 0);
  auto kept = std::make_shared<Node>();
  kept->next = std::make_shared<Node>();
  std::thread(wait_for_ever, std::move(kept)).detach();
  sem_wait(&started);
  auto leaked = std::make_shared<Node>();
  leaked->next = leaked;
}
