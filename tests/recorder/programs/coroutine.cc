// A coroutine that keeps its own session: what it keeps says what to change. Wants C++20 and g++.
#include <coroutine>
#include <memory>

struct Task {
  struct promise_type {
    Task get_return_object() { return {std::coroutine_handle<promise_type>::from_promise(*this)}; }
    std::suspend_never initial_suspend() noexcept { return {}; }
    std::suspend_always final_suspend() noexcept { return {}; }
    void return_void() {}
    void unhandled_exception() {}
  };
  std::coroutine_handle<promise_type> handle;
};
struct Session {
  Task task{};
  int total = 0;
};

Task run(std::shared_ptr<Session> self) {
  co_await std::suspend_always{};
  self->total++;
}

int main() {
  auto session = std::make_shared<Session>();
  session->task = run(session);
}
