// malloc and its like, which the program finds here first. What they take is noted, and emptied: old bytes in
// what a vector has not filled yet would look like handles.
#include <unistd.h>

#include <cerrno>
#include <cstring>

#include "chunks.h"
#include "filling.h"
#include "next_malloc.h"
#include "own_memory.h"
#include "reading.h"
#include "samples.h"
#include "threads.h"
#include "walks.h"

namespace recorder {
namespace {

// Nothing here holds a lock, so that a thread may stand still anywhere in it.
ALWAYS_INLINE bool is_usual() { return !(unusual_thread | unusual_process.load(std::memory_order_relaxed)); }

// Whether memory has to be noted; a thread that is unusual is asked once more.
__attribute__((noinline)) bool is_noted_after_all() {
  Inside inside;  // (it stands still here where all have to)
  if (!is_recording()) return false;
  if (unusual_thread & thread_state::NEW) note_this_thread();
  return unusual_thread == thread_state::INSIDE;
}

ALWAYS_INLINE bool is_noted() { return __builtin_expect(is_usual(), true) || (!Inside::is() && is_noted_after_all()); }

Word as_word(const void* memory) { return reinterpret_cast<Word>(memory); }

constexpr std::size_t SMALL = 88;

// (of what malloc gives: 24 bytes, 40, and so on up to 88; the last store overlaps the others)
ALWAYS_INLINE void empty_small(void* memory, std::size_t size) {
  using Two = Word __attribute__((vector_size(2 * WORD), aligned(WORD), may_alias));
  auto empty = [&](std::size_t at) { *reinterpret_cast<volatile Two*>(static_cast<char*>(memory) + at) = Two{0, 0}; };
  empty(0);
  empty(size - 2 * WORD);
  if (size <= 24) return;
  empty(16);
  if (size <= 40) return;
  empty(32);
  if (size <= 56) return;
  empty(48);
  if (size > 72) empty(64);
}

// Memory that the kernel gave for this chunk alone is empty already.
bool is_fresh(void* memory) { return static_cast<std::size_t*>(memory)[-1] & 2; }

// (of a chunk of a heap the word before tells it, with flags in its lowest bits)
std::size_t usable_size(void* memory) {
  return is_fresh(memory) ? next_malloc.usable_size(memory)
                          : (static_cast<std::size_t*>(memory)[-1] & ~std::size_t(7)) - WORD;
}

void note_as(void* memory, TraceNumber trace, bool is_sample) {
  if (!note_chunk(as_word(memory), trace, is_sample)) stop_recording("no memory was left for its records");
}

void note_with_trace(void* memory, Frame frame) {
  Inside inside;
  Taken taken = trace_of_memory(frame);
  note_as(memory, taken.trace, taken.unknown != nullptr);
  if (taken.unknown) add_sample(*taken.unknown, as_word(memory));
}

__attribute__((noinline)) void* noted_slowly(void* memory, Word code, Word stack, Word base) {
  TraceNumber trace = frames_wanted ? known_trace_of_memory(code, stack, base) : 0;
  if (trace || !frames_wanted)
    note_as(memory, trace, false);
  else
    note_with_trace(memory, {code, stack, base});
  return memory;
}

__attribute__((noinline)) void* noted_elsewhere(void* memory, TraceNumber trace) {
  note_as(memory, trace, false);
  return memory;
}

ALWAYS_INLINE void* noted_with(void* memory, TraceNumber trace) {
  return note_chunk_at_once(as_word(memory), trace) ? memory : noted_elsewhere(memory, trace);
}

// (this and what calls it do with the registers that a call may change: they are asked at each allocation)
__attribute__((noinline)) void* noted_by_walk(void* memory, Word code, Word stack, Word base) {
  TraceNumber trace = block_places.trace_of(code, stack, base);
  return __builtin_expect(trace, true) ? noted_with(memory, trace) : noted_slowly(memory, code, stack, base);
}

ALWAYS_INLINE void* noted(void* memory, Word code, Word stack, Word base) {
  leave_entrance(code, stack);
  TraceNumber trace = plain_places.trace_of(code);
  return trace ? noted_with(memory, trace) : noted_by_walk(memory, code, stack, base);
}

__attribute__((noinline)) void* taken_large(void* memory, Word code, Word stack, Word base) {
  if (!is_fresh(memory)) std::memset(memory, 0, usable_size(memory));
  return noted(memory, code, stack, base);
}

// What malloc gave, filled as the program wants it. (Of old bytes it has none either.)
void* taken_perturbed(void* memory, Word code, Word stack, Word base) {
  std::memset(memory, perturbation ^ 0xFF, usable_size(memory));
  return noted(memory, code, stack, base);
}

// What malloc gave, emptied.
__attribute__((noinline)) void* taken(void* memory, Word code, Word stack, Word base) {
  std::size_t head = static_cast<std::size_t*>(memory)[-1];  // (what is fresh is large)
  if (__builtin_expect(head >= SMALL + 3 * WORD, false)) return taken_large(memory, code, stack, base);
  empty_small(memory, (head & ~std::size_t(7)) - WORD);
  return noted(memory, code, stack, base);
}

void* taken_unusually(void* memory, Frame frame) {
  return perturbation ? taken_perturbed(memory, frame.code, frame.stack, frame.base)
                      : taken(memory, frame.code, frame.stack, frame.base);
}
void note(void* memory, Frame frame) { noted(memory, frame.code, frame.stack, frame.base); }

__attribute__((noinline)) void forget_slowly(void* memory) {
  Note note = forget_chunk(as_word(memory));
  if (!note.is_sample && !note.is_aligned) return;
  Inside inside;
  if (note.is_sample) learn_from(note.trace, static_cast<Word*>(memory), usable_size(memory));
  if (note.is_aligned) forget_alignment(as_word(memory));
}

ALWAYS_INLINE void forget(void* memory) {
  if (__builtin_expect(!forget_chunk_at_once(as_word(memory)), false)) forget_slowly(memory);
}

void* aligned(std::size_t alignment, std::size_t size, Frame frame) {
  if (OwnRegion::is_used()) return OwnRegion::take(size, alignment);
  void* memory = next_malloc.memalign(alignment, size);
  if (!memory || !is_noted()) return memory;
  taken_unusually(memory, frame);
  Inside inside;
  note_alignment(as_word(memory), alignment);
  return memory;
}

void* moved_to_own(void* memory, std::size_t size) {
  void* other = OwnRegion::take(size, 16);
  if (!other || !memory) return other;
  std::size_t before = OwnRegion::has(memory) ? OwnRegion::size_of(memory) : next_malloc.usable_size(memory);
  std::memcpy(other, memory, before < size ? before : size);
  return other;
}

void* resized(void* memory, std::size_t size, Frame frame) {
  if (OwnRegion::is_used()) return moved_to_own(memory, size);
  if (!is_noted()) return next_malloc.realloc(memory, size);
  std::size_t before = memory ? usable_size(memory) : 0;
  if (memory) forget(memory);
  void* other = next_malloc.realloc(memory, size);
  if (!other) {
    if (memory && size) note(memory, frame);  // it wasn't given back
    return nullptr;
  }
  std::size_t after = usable_size(other);
  if (after > before && (perturbation || !is_fresh(other)))
    std::memset(static_cast<char*>(other) + before, perturbation ? perturbation ^ 0xFF : 0, after - before);
  note(other, frame);
  return other;
}

}  // namespace
}  // namespace recorder

using namespace recorder;

#define PUBLIC extern "C" __attribute__((visibility("default")))

namespace {

__attribute__((noinline)) void* unusually_taken(std::size_t size, Word code, Word stack, Word base) {
  if (OwnRegion::is_used()) return OwnRegion::take(size, 16);
  void* memory = next_malloc.malloc(size);
  return memory && is_noted() ? taken_unusually(memory, {code, stack, base}) : memory;
}

__attribute__((noinline)) void unusually_freed(void* memory) {
  if (OwnRegion::has(memory)) return OwnRegion::give(memory);
  if (is_noted()) forget(memory);
  next_malloc.free(memory);
}

}  // namespace

PUBLIC void* malloc(std::size_t size) {
  if (__builtin_expect(!is_usual(), false)) {
    Frame frame = CALLER_FRAME;
    return unusually_taken(size, frame.code, frame.stack, frame.base);
  }
  void* memory = next_malloc.malloc(size);
  Frame frame = CALLER_FRAME;
  return __builtin_expect(memory != nullptr, true) ? taken(memory, frame.code, frame.stack, frame.base) : nullptr;
}

PUBLIC void free(void* memory) {
  if (!memory) return;
  if (__builtin_expect(!is_usual(), false)) return unusually_freed(memory);
  forget(memory);
  next_malloc.free(memory);
}

PUBLIC void* calloc(std::size_t count, std::size_t size) {
  if (OwnRegion::is_used()) return OwnRegion::take(count * size, 16);  // (pages of a new region are empty)
  void* memory = next_malloc.calloc(count, size);
  if (memory && is_noted()) note(memory, CALLER_FRAME);
  return memory;
}

PUBLIC void* realloc(void* memory, std::size_t size) { return resized(memory, size, CALLER_FRAME); }

PUBLIC void* reallocarray(void* memory, std::size_t count, std::size_t size) {
  std::size_t bytes = 0;
  if (__builtin_mul_overflow(count, size, &bytes)) return errno = ENOMEM, nullptr;
  return resized(memory, bytes, CALLER_FRAME);
}

PUBLIC void* memalign(std::size_t alignment, std::size_t size) { return aligned(alignment, size, CALLER_FRAME); }
PUBLIC void* aligned_alloc(std::size_t alignment, std::size_t size) { return aligned(alignment, size, CALLER_FRAME); }
PUBLIC void* valloc(std::size_t size) {
  return aligned(static_cast<std::size_t>(sysconf(_SC_PAGESIZE)), size, CALLER_FRAME);
}

PUBLIC int posix_memalign(void** to, std::size_t alignment, std::size_t size) {
  if (alignment % sizeof(void*) || !alignment || (alignment & (alignment - 1))) return EINVAL;
  void* memory = aligned(alignment, size, CALLER_FRAME);
  if (!memory) return ENOMEM;
  *to = memory;
  return 0;
}
