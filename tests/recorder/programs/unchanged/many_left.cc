// So many objects are left that reading them takes seconds.
#include <cstdio>
#include <memory>
#include <vector>

int main() {
  auto& kept = *new std::vector<std::shared_ptr<int>>;
  for (int number = 0; number < 4000000; number++) kept.push_back(std::make_shared<int>(number));
  std::puts("done");
  return 5;
}
