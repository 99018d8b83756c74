// A detached thread that computes at the end, and owns an object the while.
#include <atomic>
#include <memory>
#include <thread>

struct Node {
  std::shared_ptr<Node> next;
};
std::atomic<bool> started{false};
std::atomic<long> turns{0};

void compute(std::shared_ptr<Node> mine) {
  for (;;) {
    std::shared_ptr<Node> again = mine->next;
    turns += again.use_count();
    started = true;
  }
}

int main() {
  auto kept = std::make_shared<Node>();
  kept->next = std::make_shared<Node>();
  std::thread(compute, std::move(kept)).detach();
  while (!started) std::this_thread::yield();
}
