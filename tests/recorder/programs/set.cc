// Members of a set own the set's owner.
#include <memory>
#include <set>
#include <unordered_set>

struct Member;
struct Group {
  std::set<std::shared_ptr<Member>> ordered;
  std::unordered_set<std::shared_ptr<Member>> hashed;
};
struct Member {
  std::shared_ptr<Group> group;
};

int main() {
  auto group = std::make_shared<Group>();
  for (int i = 0; i < 3; i++) {
    auto member = std::make_shared<Member>();
    member->group = group;
    group->ordered.insert(member);
    group->hashed.insert(member);
  }
}
