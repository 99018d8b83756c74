// The concurrent_stack of N4162 (2014), over std::atomic<std::shared_ptr>, and a main with four threads.
#include <atomic>
#include <cstdio>
#include <memory>
#include <thread>
#include <vector>

template <typename T>
class concurrent_stack {
  struct Node {
    T t;
    std::shared_ptr<Node> next;
  };
  std::atomic<std::shared_ptr<Node>> head;
  concurrent_stack(concurrent_stack&) = delete;
  void operator=(concurrent_stack&) = delete;

 public:
  concurrent_stack() = default;
  ~concurrent_stack() = default;
  class reference {
    std::shared_ptr<Node> p;

   public:
    reference(std::shared_ptr<Node> p_) : p{std::move(p_)} {}
    explicit operator bool() const { return p != nullptr; }
    T& operator*() { return p->t; }
    T* operator->() { return &p->t; }
  };
  auto find(T t) const {
    auto p = head.load();
    while (p && p->t != t) p = p->next;
    return reference{std::move(p)};
  }
  auto front() const { return reference(head.load()); }
  void push_front(T t) {
    auto p = std::make_shared<Node>();
    p->t = t;
    p->next = head.load();
    while (!head.compare_exchange_weak(p->next, p)) {
    }
  }
  void pop_front() {
    auto p = head.load();
    while (p && !head.compare_exchange_weak(p, p->next)) {
    }
  }
};

int main() {
  concurrent_stack<unsigned long> stack;
  std::atomic<unsigned> found{};
  {
    std::vector<std::jthread> team;
    for (unsigned long me = 0; me < 4; ++me)
      team.emplace_back([&, me] {
        for (unsigned long turn = 0; turn < 1000; ++turn) {
          unsigned long mine = me * 1000 + turn;
          stack.push_front(mine);
          if (auto it = stack.find(mine)) ++found;
          if (turn % 100 != 0) stack.pop_front();
        }
      });
  }
  unsigned left = 0;
  for (; stack.front(); stack.pop_front()) ++left;
  std::printf("%s was found, %u left\n", found > 0 ? "some" : "none", left);
}
