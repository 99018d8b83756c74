#include "stacks.h"

#include <pthread.h>
#include <sys/resource.h>
#include <sys/syscall.h>
#include <unistd.h>

#include <algorithm>

#include "mappings.h"
#include "system_calls.h"
#include "table.h"

extern "C" void* stack_end_of_main __asm__("__libc_stack_end");

namespace recorder {

RECORDER_THREAD Bounds own_stack{0, 0};

namespace {

Tables<Bounds> known_stacks;  // by thread

// A signal's frame takes some 4 KB, which a thread with a smaller stack may not have left.
constexpr Word SMALL_STACK = 64 << 10;
constexpr Word MOST_OF_A_STACK = 8 << 20;

pid_t this_thread() { return static_cast<pid_t>(syscall(SYS_gettid)); }

// Where the C library says that the stack of a thread lies that it made.
Bounds stack_of_library() {
  pthread_attr_t attributes;
  void* from = nullptr;
  std::size_t size = 0;
  if (pthread_getattr_np(pthread_self(), &attributes)) return {0, 0};
  bool is_told = !pthread_attr_getstack(&attributes, &from, &size);
  pthread_attr_destroy(&attributes);
  Word at = reinterpret_cast<Word>(from);
  return is_told ? Bounds{at, at + size} : Bounds{0, 0};
}

// The stack of the thread that runs main may grow as far as its limit, or to the mapping below. (The C library would take
// memory of malloc to tell it.)
Bounds stack_of_main() {
  Word to = page_of(reinterpret_cast<Word>(stack_end_of_main)) + PAGE, below = 0;
  Mappings mappings;
  for (Mapping mapping; mappings.next(mapping) && mapping.to < to;) below = mapping.to;
  rlimit limit;
  if (getrlimit(RLIMIT_STACK, &limit)) return {0, 0};
  return {limit.rlim_cur < to - below ? page_of(to - limit.rlim_cur) : below, to};
}

}  // namespace

void note_this_thread() {
  SystemCalls calls;
  if (!calls.are_allowed()) return;
  unusual_thread &= ~thread_state::NEW;
  own_stack = this_thread() == getpid() ? stack_of_main() : stack_of_library();
  if (own_stack.to) known_stacks.put(this_thread(), own_stack);
}

namespace {

// The mapping that an address lies in: none where there is none, and all memory where that can't be told.
Bounds mapping_of(Word address) {
  Mappings mappings;
  if (!mappings.is_open()) return {0, ~Word(0)};
  for (Mapping mapping; mappings.next(mapping);)
    if (mapping.from <= address && address < mapping.to) return {mapping.from, mapping.to};
  return {address, address};
}

// Up to the end that the thread noted; of another stack, which may be one of many in a mapping, to the mapping's end.
LivingStack living_stack(pid_t thread, Word address, const Bounds* noted) {
  if (noted && noted->has(address)) return {thread, address, noted->to, address};
  Bounds mapped = mapping_of(address);
  if (!mapped.from) return {thread, address, address + MOST_OF_A_STACK, address};  // (reading ends with the mapping)
  return {thread, address, mapped.to, noted ? address : mapped.from};
}

LivingStack whole_stack(pid_t thread, const Bounds& noted) {
  Word from = std::max(noted.from, mapping_of(noted.to - 1).from);
  return {thread, from, noted.to, from};
}

}  // namespace

void add_living_stacks(pid_t thread, Word address, std::vector<LivingStack>& to) {
  const Bounds* noted = known_stacks.of(thread).find(thread);
  to.push_back(living_stack(thread, address, noted));
  if (noted && !noted->has(address)) to.push_back(whole_stack(thread, *noted));
}

void add_whole_stack(pid_t thread, std::vector<LivingStack>& to) {
  if (const Bounds* noted = known_stacks.of(thread).find(thread)) to.push_back(whole_stack(thread, *noted));
}

bool has_small_stack(pid_t thread) {
  Bounds* bounds = known_stacks.of(thread).find(thread);
  return bounds && bounds->to - bounds->from < SMALL_STACK;
}

void each_known_stack(void (*visit)(Word from, Word to, void* with), void* with) {
  known_stacks.each([&](Word, const Bounds& it) { visit(it.from, it.to, with); });
}

}  // namespace recorder
