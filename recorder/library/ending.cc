// When memory is read: at the very end of the process, and at _exit.
#include <cxxabi.h>
#include <dlfcn.h>
#include <pthread.h>
#include <signal.h>
#include <sys/syscall.h>
#include <sys/time.h>
#include <unistd.h>

#include <cerrno>
#include <cstdlib>
#include <cstring>
#include <initializer_list>

#include "closed.h"
#include "ending.h"
#include "filling.h"
#include "hook_tables.h"
#include "kept_file.h"
#include "next_malloc.h"
#include "reading.h"
#include "record_file.h"
#include "signals.h"
#include "system_calls.h"

namespace recorder {
namespace {

pid_t recorded_process;
bool with_children;
bool is_wanted;  // this process is asked about
int seconds_to_read;
std::atomic<pid_t> ended{0};  // the process that has read its memory: one after vfork shares this word
Word exit_stack;              // where exit() was called; after main's return no frame of its thread lives
pid_t exit_thread;

// What would end the process while it is read, after its own end.
void stop_timers() {
  itimerval none{};
  for (auto it : {ITIMER_REAL, ITIMER_VIRTUAL, ITIMER_PROF}) setitimer(it, &none, nullptr);
}

bool is_asked_about() { return getpid() == recorded_process || with_children; }

struct Question {
  const char* when;
  Word from_frame;  // where the frames of the reading thread begin; 0 where none live
  int snapshot;
};
Question question;

void answer_question() {
  long began = milliseconds_now();
  pid_t thread = static_cast<pid_t>(syscall(SYS_gettid));
  OwnRegion region;
  std::vector<LivingStack> own;
  if (question.from_frame) add_living_stacks(thread, question.from_frame, own);
  Modules modules;
  Outside outside(modules);
  KernelData kernel;
  AllStandStill still;
  kernel.wait_in(still.epolls());
  auto stacks = still.stacks();
  stacks.insert(stacks.end(), own.begin(), own.end());
  Snapshot all(modules, outside, kernel, stacks);
  all.unread_threads = still.without_registers();
  write_record(question.snapshot, all, question.when, began);
}

// Within a turn.
void read_memory(const char* when, Word from_frame, int snapshot) {
  int before = errno;
  question = {when, from_frame, snapshot};
  const char* why = refusal ? refusal.load() : read_apart(answer_question, seconds_to_read);
  if (why) {
    AllStandStill::let_go();
    OwnRegion::give_back();
    write_refusal(snapshot, why);
  }
  errno = before;
}

}  // namespace

void read_at_end(const char* when, Word stack) {
  if (!is_wanted || !is_asked_about()) return;
  Turn turn;  // (who ends the process by another thread waits until it is read)
  if (ended.exchange(getpid()) == getpid()) return;
  if (!refusal) stop_timers();
  read_memory(when, stack, 0);
}

void read_now(int snapshot) {
  if (!is_recording() || !is_asked_about()) return;
  Turn turn;
  read_memory("now", 0, snapshot);
}

void refuse_now(const char* why) {
  if (!is_wanted) return;
  stop_recording(why);
  read_at_end("exit", 0);
}

namespace {

// (in what this process may become, which is confined from its beginning)
void forget_process_in_environment() {
  char* process = std::getenv("RECORDER_PROCESS");
  while (process && *process) *process++ = '0';
}

}  // namespace

void refuse_now_and_keep_still(const char* why) {
  refuse_now(why);
  stop_noting();
  SystemCalls::wait_for_end();
  if (is_wanted) leave_ending_signals();
  is_wanted = false;
  KeptFile::forget_all();
  forget_process_in_environment();
}

namespace {

// Whether frames of the program lie on this stack below the C library's, as where err or error ends it: more than the
// one that called main.
bool has_frames_of_program(Frame frame) {
  Inside inside;
  int count = 0;
  Place* place = nullptr;
  do {
    Dl_info info;
    if (dladdr(reinterpret_cast<void*>(frame.code - 1), &info))
      count += !std::strstr(info.dli_fname, "/libc.so") && !std::strstr(info.dli_fname, "/ld-linux");
    place = place_of(frame.code);
  } while (place && step(frame, place->rule));
  return count > 1;
}

void at_the_end(void*) {
  if (!is_wanted) return;
  __builtin_unwind_init();  // (what its callers hold in registers lies on the stack now)
  bool is_deep = exit_stack && exit_thread == static_cast<pid_t>(syscall(SYS_gettid));
  bool is_within = !exit_stack && has_frames_of_program(CALLER_FRAME);
  read_at_end("exit", is_deep ? exit_stack : is_within ? stack_here() : 0);
}

void at_quick_exit_end() {
  __builtin_unwind_init();
  read_at_end("quick_exit", stack_here());
}

int number_of(const char* variable) {
  const char* text = std::getenv(variable);
  return text ? std::atoi(text) : 0;
}

void lock_tables() { lock_closed(), lock_chunks(), births.lock_all(), holdings.lock_all(), lock_traces(); }
void unlock_tables() {
  unlock_traces(), holdings.unlock_all(), births.unlock_all(), unlock_chunks(), unlock_closed();
}

bool is_becoming_daemon = false;

void unlock_in_parent() {
  unlock_tables();
  if (is_becoming_daemon) refuse_now("it goes on as a daemon: a process of its own, whose end nobody waits for");
}

void unlock_in_child() {
  unlock_tables();
  SystemCalls::forget_others();
  is_becoming_daemon = false;
  if (!is_wanted) return;
  if (with_children) {
    Turn::let_go();
    open_way_out();
    keep_threads_folder();
  } else {
    is_wanted = false;
    stop_noting();
    close_way_out();
  }
}

// Before main. What is registered here without a library's handle comes after each destructor of a static.
__attribute__((constructor(101))) void begin() {
  Inside inside;
  with_children = number_of("RECORDER_CHILDREN");
  recorded_process = number_of("RECORDER_PROCESS");
  is_wanted = recorded_process && is_asked_about() && know_way_out(std::getenv("RECORDER_SOCKET"), std::getenv("RECORDER_FILE"));
  if (!is_wanted) {
    stop_noting();
    return;
  }
  open_way_out();
  keep_threads_folder();
  refuse_own_malloc();
  if (refusal) return read_at_end("exit", 0);
  know_program();
  know_loader();
  ask_environment_for_perturbation();
  frames_wanted = number_of("RECORDER_FRAMES");
  seconds_to_read = number_of("RECORDER_SECONDS");
  pthread_atfork(lock_tables, unlock_in_parent, unlock_in_child);
  abi::__cxa_atexit(at_the_end, nullptr, nullptr);
  at_quick_exit(at_quick_exit_end);
  end_by_signals();
  if (int number = number_of("RECORDER_SIGNAL")) answer_signal(number);
}

}  // namespace
}  // namespace recorder

using namespace recorder;

#define PUBLIC extern "C" __attribute__((visibility("default")))

PUBLIC void exit(int status) {
  static auto next = reinterpret_cast<void (*)(int)>(dlsym(RTLD_NEXT, "exit"));
  __builtin_unwind_init();
  if (!exit_stack && is_wanted) {
    exit_stack = stack_here();
    exit_thread = static_cast<pid_t>(syscall(SYS_gettid));
  }
  next(status);
  __builtin_unreachable();
}

PUBLIC void _exit(int status) {
  __builtin_unwind_init();
  read_at_end("_exit", stack_here());
  syscall(SYS_exit_group, status);
  __builtin_unreachable();
}

PUBLIC void _Exit(int status) { _exit(status); }

// (the process that asks for it ends within)
PUBLIC int daemon(int stays, int keeps_streams) {
  static auto next = reinterpret_cast<int (*)(int, int)>(dlsym(RTLD_NEXT, "daemon"));
  is_becoming_daemon = true;
  int failed = next(stays, keeps_streams);
  is_becoming_daemon = false;
  return failed;
}
