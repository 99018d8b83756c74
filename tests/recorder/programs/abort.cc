// abort: nothing is read, and the report says so.
#include <cstdlib>
#include <memory>

int main() {
  auto number = std::make_shared<int>(1);
  if (number.use_count() == 1) std::abort();
}
