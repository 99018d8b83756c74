// Four threads share objects; each leaks one circle.
#include <memory>
#include <thread>
#include <vector>

struct Job {
  std::shared_ptr<Job> next;
};

void work(std::shared_ptr<Job> shared) {
  for (int i = 0; i < 2000; i++) auto copy = shared;
  auto job = std::make_shared<Job>();
  job->next = job;
}

int main() {
  auto shared = std::make_shared<Job>();
  std::vector<std::thread> threads;
  for (int i = 0; i < 4; i++) threads.emplace_back(work, shared);
  for (auto& it : threads) it.join();
}
