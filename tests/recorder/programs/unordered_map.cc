// A cache whose entries own each other.
#include <memory>
#include <unordered_map>

struct Entry {
  std::unordered_map<int, std::shared_ptr<Entry>> others;
};

int main() {
  auto a = std::make_shared<Entry>();
  auto b = std::make_shared<Entry>();
  auto c = std::make_shared<Entry>();
  a->others[7] = b;
  a->others[8] = c;
  b->others[9] = a;
}
