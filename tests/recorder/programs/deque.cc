// A queue whose tasks own the queue.
#include <deque>
#include <memory>

struct Task;
struct Queue {
  std::deque<std::shared_ptr<Task>> tasks;
};
struct Task {
  std::shared_ptr<Queue> queue;
};

int main() {
  auto queue = std::make_shared<Queue>();
  for (int i = 0; i < 100; i++) {
    queue->tasks.push_back(std::make_shared<Task>());
    queue->tasks.back()->queue = queue;
  }
}
