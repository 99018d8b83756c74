// Four threads, each with 2 MB of small objects, whose heaps lie beside the recorder's own mappings. Each leaks one.
#include <cstdio>
#include <memory>
#include <thread>
#include <vector>

struct Node {
  std::shared_ptr<Node> next;
  long number = 0;
};

void work() {
  std::vector<std::shared_ptr<Node>> all;
  for (int at = 0; at < 30000; at++) all.push_back(std::make_shared<Node>());
  auto leaked = std::make_shared<Node>();
  leaked->next = leaked;
}

int main() {
  std::vector<std::thread> threads;
  for (int at = 0; at < 4; at++) threads.emplace_back(work);
  for (auto& thread : threads) thread.join();
  std::puts("done");
}
