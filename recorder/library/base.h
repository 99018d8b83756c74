// Words of memory, and how the recorder tells its own doings from the program's.
#pragma once
#include <sys/single_threaded.h>

#include <atomic>
#include <cstddef>
#include <cstdint>

namespace recorder {

using Word = std::uintptr_t;
constexpr std::size_t WORD = sizeof(Word);

constexpr Word PAGE = 4096;
constexpr Word page_of(Word address) { return address & ~(PAGE - 1); }
constexpr Word whole_pages(Word bytes) { return page_of(bytes + PAGE - 1); }  // (also up to an address)

// The newest byte of this thread's stack.
inline __attribute__((always_inline)) Word stack_here() {
  Word here;
  asm volatile("mov %%rsp, %0" : "=r"(here));
  return here;
}

// A variable of each thread, without a constructor.
#define RECORDER_THREAD __thread __attribute__((tls_model("initial-exec")))

// A variable of the recorder's units alone, which is found without a table.
#define OF_ALL_UNITS extern __attribute__((visibility("hidden")))

#define ALWAYS_INLINE inline __attribute__((always_inline))

OF_ALL_UNITS std::atomic<bool> hooked;  // a hook of the program's headers has been called

// What sets the process apart from one whose threads note what they take; 0 where nothing does.
namespace process_state {
constexpr int NOT_RECORDED = 1;  // nobody asked about it, or it is refused
constexpr int STOPPING = 2;      // all threads but one have to stand still
constexpr int ENDING = 4;        // it ends as soon as a thread leaves the recorder's code
constexpr int PERTURBED = 8;     // fresh memory is not to be empty
}  // namespace process_state
OF_ALL_UNITS std::atomic<int> unusual_process;

inline bool is_recording() {
  return !(unusual_process.load(std::memory_order_relaxed) & process_state::NOT_RECORDED);
}
inline bool is_stopping() {
  return unusual_process.load(std::memory_order_relaxed) & process_state::STOPPING;
}
inline bool is_interrupted() {
  return unusual_process.load(std::memory_order_relaxed) & (process_state::STOPPING | process_state::ENDING);
}
inline void stop_noting() { unusual_process |= process_state::NOT_RECORDED; }

// What sets a thread apart from one that notes what it takes; 0 where nothing does.
namespace thread_state {
constexpr int NEW = 1;            // where its stack lies isn't known
constexpr int IN_OWN_REGION = 2;  // what it takes is the recorder's
constexpr int INSIDE = 4;         // so many times within the recorder's code
}  // namespace thread_state
extern RECORDER_THREAD int unusual_thread;

// While one lives, its thread runs the recorder's code: the memory that it takes isn't the program's, and where
// all threads have to stand still it stands still before and after, never within.
class Inside {
public:
  Inside() {
    if (!is() && is_interrupted()) be_interrupted();
    unusual_thread += thread_state::INSIDE;
  }
  ~Inside() {
    unusual_thread -= thread_state::INSIDE;
    if (!is() && is_interrupted()) be_interrupted();
  }
  Inside(const Inside&) = delete;
  static bool is() { return unusual_thread >= thread_state::INSIDE; }

private:
  static void be_interrupted();
  static void stand_still();
};

// A spinning lock, which costs nothing atomic as long as there is one thread.
class Lock {
public:
  void lock() {
    if (__libc_single_threaded)
      held.store(true, std::memory_order_relaxed);
    else if (held.exchange(true, std::memory_order_acquire))
      wait();
  }
  void unlock() { held.store(false, std::memory_order_release); }

private:
  void wait();
  std::atomic<bool> held{false};
};

}  // namespace recorder
