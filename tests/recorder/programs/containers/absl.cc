// Circles through containers of absl: a hash map with two pointers into its one array, and a vector that keeps one
// element in itself.
#include <absl/container/flat_hash_map.h>
#include <absl/container/inlined_vector.h>

#include <memory>

struct Session {
  absl::flat_hash_map<int, std::shared_ptr<Session>> peers;
};
struct Widget {
  absl::InlinedVector<std::shared_ptr<Widget>, 1> parts;
};

int main() {
  auto one = std::make_shared<Session>(), other = std::make_shared<Session>();
  one->peers[1] = other;
  other->peers[2] = one;
  auto small = std::make_shared<Widget>();
  small->parts.push_back(small);
  auto large = std::make_shared<Widget>();
  for (int count = 0; count < 3; count++) large->parts.push_back(large);
}
