#include "reading.h"

#include <pthread.h>
#include <signal.h>
#include <sys/resource.h>
#include <sys/syscall.h>
#include <time.h>
#include <ucontext.h>
#include <unistd.h>

#include <atomic>
#include <cstdio>
#include <initializer_list>

#include "own_memory.h"

namespace recorder {

std::atomic<const char*> refusal{nullptr};

void stop_recording(const char* why) {
  stop_noting();
  refusal = why;
}

long milliseconds_now() {
  timespec now{};
  clock_gettime(CLOCK_MONOTONIC, &now);
  return now.tv_sec * 1000 + now.tv_nsec / 1'000'000;
}

namespace {

constexpr std::size_t STACK_BYTES = 1 << 20;

ucontext_t caller, reader;  // one reading at a time
void (*work_of_reader)();
const char* why_given_up;
RECORDER_THREAD bool is_reading = false;
RECORDER_THREAD bool has_lock = false;
char why_too_long[80];

// Limits that the program set for itself, raised as far as it may.
class RaisedLimits {
public:
  RaisedLimits() {
    for (int at = 0; at < COUNT; at++) {
      is_changed[at] = !getrlimit(KINDS[at], &before[at]) && before[at].rlim_cur != before[at].rlim_max;
      if (!is_changed[at]) continue;
      rlimit all{before[at].rlim_max, before[at].rlim_max};
      is_changed[at] = !setrlimit(KINDS[at], &all);
    }
  }
  ~RaisedLimits() {
    for (int at = 0; at < COUNT; at++)
      if (is_changed[at]) setrlimit(KINDS[at], &before[at]);
  }
  RaisedLimits(const RaisedLimits&) = delete;

private:
  static constexpr int COUNT = 5;
  static constexpr __rlimit_resource KINDS[COUNT] = {RLIMIT_AS, RLIMIT_DATA, RLIMIT_NOFILE, RLIMIT_FSIZE,
                                                     RLIMIT_CPU};
  rlimit before[COUNT];
  bool is_changed[COUNT];
};

// Memory that vanishes while it is read ends the reading, and so does the timer of TimeLimit, which sends a signal of the
// same kind; a fault elsewhere is the program's own affair.
class CaughtFaults {
public:
  CaughtFaults() {
    struct sigaction action {};
    action.sa_sigaction = [](int, siginfo_t* what, void*) {
      bool is_late = what->si_code == SI_TIMER;
      if (is_reading && !(is_late && has_lock)) give_up(is_late ? why_too_long : "memory vanished while it was read");
      if (!is_late) restore();
    };
    action.sa_flags = SA_SIGINFO;
    sigfillset(&action.sa_mask);
    for (int at = 0; at < 2; at++) sigaction(KINDS[at], &action, &before[at]);
  }
  ~CaughtFaults() { restore(); }
  CaughtFaults(const CaughtFaults&) = delete;

private:
  static void restore() {
    for (int at = 0; at < 2; at++) sigaction(KINDS[at], &before[at], nullptr);
  }

  static constexpr int KINDS[2] = {SIGSEGV, SIGBUS};
  static struct sigaction before[2];
};
struct sigaction CaughtFaults::before[2];

// While one lives a signal comes to this thread after so many seconds, and again as long as it isn't heeded.
class TimeLimit {
public:
  explicit TimeLimit(int seconds) {
    std::snprintf(why_too_long, sizeof why_too_long, "reading its memory took more than %d s; see --limit", seconds);
    sigevent event{};
    event.sigev_notify = SIGEV_THREAD_ID;
    event.sigev_signo = SIGBUS;
    event._sigev_un._tid = static_cast<pid_t>(syscall(SYS_gettid));
    is_set = seconds > 0 && !syscall(SYS_timer_create, CLOCK_MONOTONIC, &event, &timer);
    itimerspec after{{0, 50'000'000}, {seconds, 0}};
    if (is_set) syscall(SYS_timer_settime, timer, 0, &after, nullptr);
  }
  // (one that is on its way comes here)
  ~TimeLimit() {
    if (is_set) syscall(SYS_timer_delete, timer);
  }
  TimeLimit(const TimeLimit&) = delete;

private:
  int timer = 0;  // the kernel's number
  bool is_set;
};

std::atomic<bool> is_taken{false};

void run_reader() { work_of_reader(); }

}  // namespace

Turn::Turn() {
  timespec shortly{0, 200'000};
  while (!take()) nanosleep(&shortly, nullptr);
}

// (what ends the process waits within the recorder's code until the turn is over)
bool Turn::take() {
  if (is_taken) return false;
  inside.emplace();
  sigset_t all;
  sigfillset(&all);
  for (int it : {SIGSEGV, SIGBUS, SIGILL, SIGFPE, SIGTRAP}) sigdelset(&all, it);
  pthread_sigmask(SIG_SETMASK, &all, &before);
  if (!is_taken.exchange(true)) return true;
  pthread_sigmask(SIG_SETMASK, &before, nullptr);
  inside.reset();
  return false;
}

Turn::~Turn() {
  let_go();
  pthread_sigmask(SIG_SETMASK, &before, nullptr);
}

void Turn::let_go() { is_taken = false; }

HeldLock::HeldLock() { has_lock = true; }
HeldLock::~HeldLock() { has_lock = false; }

const char* read_apart(void (*work)(), int seconds) {
  RaisedLimits raised;
  void* stack = own_pages(STACK_BYTES);
  if (!stack) return "no memory is left for reading it";
  CaughtFaults caught;
  TimeLimit limit(seconds);
  work_of_reader = work;
  why_given_up = nullptr;
  getcontext(&reader);
  reader.uc_stack.ss_sp = stack;
  reader.uc_stack.ss_size = STACK_BYTES;
  reader.uc_link = &caller;
  makecontext(&reader, run_reader, 0);
  is_reading = true;
  swapcontext(&caller, &reader);
  is_reading = false;
  give_own_pages(stack, STACK_BYTES);
  return why_given_up;
}

void give_up(const char* why) {
  why_given_up = why;
  setcontext(&caller);
  __builtin_unreachable();
}

}  // namespace recorder
