#include "threads.h"

#include <dirent.h>
#include <fcntl.h>
#include <sched.h>
#include <signal.h>
#include <sys/syscall.h>
#include <time.h>
#include <unistd.h>

#include <algorithm>
#include <cerrno>
#include <cstdio>
#include <cstdlib>
#include <cstring>
#include <string>

#include "ending.h"
#include "kept_file.h"
#include "reading.h"
#include "system_calls.h"

namespace recorder {
namespace {

struct Standing {
  pid_t thread;
  Word stack;
};
constexpr int MOST_STANDING = 4096;
Standing standing[MOST_STANDING];
std::atomic<int> places{0}, answered{0};
RECORDER_THREAD volatile bool is_asked = false, is_standing = false;

KeptFile threads_folder;

// On a busy machine a thread may not run for seconds.
constexpr int MOST_PAUSES = 50'000;

pid_t this_thread() { return static_cast<pid_t>(syscall(SYS_gettid)); }

int signal_to_stop() { return SIGRTMAX - 5; }

void pause_shortly() {
  timespec shortly{0, 200'000};
  nanosleep(&shortly, nullptr);
}

}  // namespace

std::atomic<bool> hooked{false};
std::atomic<int> unusual_process{0};
RECORDER_THREAD int unusual_thread = thread_state::NEW;

namespace {

void let_others_run() {
  SystemCalls calls;
  if (calls.are_allowed()) sched_yield();
}

}  // namespace

void Lock::wait() {
  int tries = 0;
  do
    while (held.load(std::memory_order_relaxed))
      if (++tries % 100 == 0) let_others_run();
  while (held.exchange(true, std::memory_order_acquire));
}

namespace {

bool stands(pid_t thread) {
  int count = std::min<int>(places, MOST_STANDING);
  return std::any_of(standing, standing + count, [&](const Standing& it) { return it.thread == thread; });
}

void answer_if_asked() {
  if (!is_asked) return;
  is_asked = false;
  answered++;
}

}  // namespace

void Inside::be_interrupted() {
  if (is_stopping()) return stand_still();
  __builtin_unwind_init();
  end_by_signal();
}

void Inside::stand_still() {
  int before = errno;
  unusual_thread += thread_state::INSIDE;
  is_standing = true;
  int place = places++;
  __builtin_unwind_init();  // (all that its registers hold lies on the stack now)
  if (place < MOST_STANDING) standing[place] = {this_thread(), stack_here()};
  answer_if_asked();
  while (is_stopping()) pause_shortly();
  is_standing = false;
  unusual_thread -= thread_state::INSIDE;
  errno = before;
}

namespace {

// (within the recorder's own code a thread goes on until it leaves that)
void stop_here(int) {
  is_asked = true;
  if (is_standing) answer_if_asked();
  if (Inside::is()) return;
  { Inside inside; }
  is_asked = false;
}

// What a file has, up to so many bytes; '' where it can't be read. (While threads stand still nothing of stdio is
// used: they may hold its locks.)
std::size_t contents(int file, char* to, std::size_t most) {
  std::size_t size = 0;
  while (file >= 0 && size + 1 < most) {
    ssize_t got = read(file, to + size, most - 1 - size);
    if (got < 0 && errno == EINTR) continue;
    if (got <= 0) break;
    size += got;
  }
  to[size] = 0;
  if (file >= 0) close(file);
  return size;
}

// The system call that a thread is in, as the kernel tells it; without a stack where it runs.
struct Call {
  Word number = 0, first_argument = 0, stack = 0;

  bool waits_in_epoll() const {
    return number == SYS_epoll_wait || number == SYS_epoll_pwait || number == SYS_epoll_pwait2;
  }
};

Call call_of(int folder, pid_t thread) {
  char path[32], text[512];
  std::snprintf(path, sizeof path, "%d/syscall", thread);
  contents(openat(folder, path, O_RDONLY | O_CLOEXEC), text, sizeof text);
  Word words[16];
  int count = 0;
  for (char* at = text; count < 16; count++) {
    char* end = nullptr;
    Word word = std::strtoul(at, &end, 0);
    if (end == at) break;
    words[count] = word;
    at = end;
  }
  return count >= 3 ? Call{words[0], words[1], words[count - 2]} : Call{};
}

enum class Hearing { HEARS, DEAF, ENDED };

// Whether a thread has blocked the signal, so that it goes on; or has ended, as main's may have before the others.
Hearing hearing_of(int folder, pid_t thread) {
  char path[32], text[4096];
  std::snprintf(path, sizeof path, "%d/status", thread);
  contents(openat(folder, path, O_RDONLY | O_CLOEXEC), text, sizeof text);
  const char* state = std::strstr(text, "\nState:\t");
  const char* blocked = std::strstr(text, "\nSigBlk:");
  if (!state || !blocked) return syscall(SYS_tgkill, getpid(), thread, 0) ? Hearing::ENDED : Hearing::HEARS;
  if (state[8] == 'Z' || state[8] == 'X') return Hearing::ENDED;
  return std::strtoul(blocked + 8, nullptr, 16) >> (signal_to_stop() - 1) & 1 ? Hearing::DEAF : Hearing::HEARS;
}

// The folder of this process's threads; -1 where there is none.
int open_threads_folder() { return open("/proc/self/task", O_RDONLY | O_DIRECTORY | O_CLOEXEC); }

std::vector<pid_t> other_threads(int folder) {
  std::vector<pid_t> threads;
  alignas(dirent64) char entries[4096];
  if (lseek(folder, 0, SEEK_SET)) give_up("its threads can't be told");
  while (long size = syscall(SYS_getdents64, folder, entries, sizeof entries)) {
    if (size < 0) give_up("its threads can't be told");
    for (long at = 0; at < size;) {
      auto entry = reinterpret_cast<dirent64*>(entries + at);
      pid_t thread = std::atoi(entry->d_name);
      if (thread > 0 && thread != this_thread()) threads.push_back(thread);
      at += entry->d_reclen;
    }
  }
  return threads;
}

}  // namespace

void keep_threads_folder() { threads_folder.keep(open_threads_folder()); }

// A stack is taken whole, where it is known, of a thread that goes on.
void AllStandStill::take_whole(pid_t thread) {
  unread++;
  add_whole_stack(thread, found);
}

void AllStandStill::stop_others() {
  int kept = threads_folder.number();
  int folder = kept >= 0 ? kept : open_threads_folder();
  if (folder < 0 && __libc_single_threaded) return;
  std::vector<pid_t> asked;
  for (pid_t thread : other_threads(folder)) {
    Hearing hearing = hearing_of(folder, thread);
    if (hearing == Hearing::ENDED) continue;
    Call call = call_of(folder, thread);
    if (call.stack && call.waits_in_epoll()) waited.push_back(static_cast<int>(call.first_argument));
    if (call.stack)
      add_living_stacks(thread, call.stack, found), unread++;
    else if (has_small_stack(thread) || hearing == Hearing::DEAF)
      take_whole(thread);
    else if (!syscall(SYS_tgkill, getpid(), thread, signal_to_stop()))
      asked.push_back(thread);
  }
  auto will_stand = [folder](pid_t it) { return !stands(it) && hearing_of(folder, it) == Hearing::HEARS; };
  for (int pauses = 1; answered < int(asked.size()) && pauses < MOST_PAUSES; pauses++) {
    pause_shortly();
    if (pauses % 500 == 0 && std::none_of(asked.begin(), asked.end(), will_stand)) break;
  }
  for (pid_t thread : asked)
    if (!stands(thread) && hearing_of(folder, thread) != Hearing::ENDED) take_whole(thread);
  if (folder != kept) close(folder);
}

AllStandStill::AllStandStill() {
  places = answered = 0;
  struct sigaction action {};
  action.sa_handler = stop_here;
  action.sa_flags = SA_RESTART;
  sigaction(signal_to_stop(), &action, nullptr);
  unusual_process |= process_state::STOPPING;
  stop_others();
  for (int place = 0; place < places && place < MOST_STANDING; place++)
    add_living_stacks(standing[place].thread, standing[place].stack, found);
}

AllStandStill::~AllStandStill() { let_go(); }

void AllStandStill::let_go() { unusual_process &= ~process_state::STOPPING; }

}  // namespace recorder
