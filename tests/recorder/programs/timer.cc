// Memory that only the kernel points to: the value of a timer.
#include <signal.h>
#include <time.h>

#include <memory>

struct Session {
  int number = 1;
};
struct Deadline {
  std::shared_ptr<Session> session;
};
Deadline* volatile handed_over;

__attribute__((noinline)) void arm() {
  handed_over = new Deadline{std::make_shared<Session>()};
  sigevent event{};
  event.sigev_notify = SIGEV_SIGNAL;
  event.sigev_signo = SIGRTMIN;
  event.sigev_value.sival_ptr = handed_over;
  timer_t timer;
  timer_create(CLOCK_MONOTONIC, &event, &timer);
  handed_over = nullptr;
}

int main() { arm(); }
