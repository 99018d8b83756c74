#include "signals.h"

#include <pthread.h>
#include <semaphore.h>
#include <signal.h>
#include <unistd.h>

#include <csignal>
#include <initializer_list>

#include "ending.h"

namespace recorder {
namespace {

sem_t asked;

void* answer(void*) {
  for (int snapshot = 1;; snapshot++) {
    while (sem_wait(&asked)) {
    }
    read_now(snapshot);
  }
}

void ask(int) {
  if (is_recording()) sem_post(&asked);
}

}  // namespace

void answer_signal(int number) {
  sem_init(&asked, 0, 0);
  pthread_t thread{};
  sigset_t all, before;
  sigfillset(&all);
  pthread_sigmask(SIG_BLOCK, &all, &before);
  int failed = pthread_create(&thread, nullptr, answer, nullptr);
  pthread_sigmask(SIG_SETMASK, &before, nullptr);
  if (failed) return;
  struct sigaction action {};
  action.sa_handler = ask;
  action.sa_flags = SA_RESTART;
  sigaction(number, &action, nullptr);
}

namespace {

std::atomic<int> ending_signal{0};

// Where nothing else takes a signal that ends servers, the process is read and then ends by it: at once, or as soon as
// this thread has left the recorder's code.
void read_and_end(int number) {
  ending_signal = number;
  if (Inside::is())
    unusual_process |= process_state::ENDING;
  else
    end_by_signal();
}

// Gives signals that end servers another handler where they have this one.
void replace_handler(void (*from)(int), void (*to)(int)) {
  for (int number : {SIGTERM, SIGINT}) {
    struct sigaction before {}, action {};
    if (sigaction(number, nullptr, &before) || before.sa_handler != from) continue;
    action.sa_handler = to;
    action.sa_flags = SA_RESTART;
    sigaction(number, &action, nullptr);
  }
}

}  // namespace

void end_by_signals() { replace_handler(SIG_DFL, read_and_end); }
void leave_ending_signals() { replace_handler(read_and_end, SIG_DFL); }

void end_by_signal() {
  unusual_process &= ~process_state::ENDING;
  int number = ending_signal.exchange(0);
  if (!number) return;
  read_at_end(number == SIGTERM ? "SIGTERM" : "SIGINT", stack_here());
  std::signal(number, SIG_DFL);
  kill(getpid(), number);
}

}  // namespace recorder
