// What the hooks of the program's headers call.
#include "hooks.h"

#include <pthread.h>

#include "hook_tables.h"
#include "threads.h"

namespace recorder {

Tables<Birth> births;
Tables<Holding> holdings;

namespace {

bool is_noted() { return is_recording() && !Inside::is(); }
Word as_word(const volatile void* pointer) { return reinterpret_cast<Word>(pointer); }

}  // namespace
}  // namespace recorder

using namespace recorder;

#define PUBLIC extern "C" __attribute__((visibility("default")))

PUBLIC void sptr_recorder_born(void* block) noexcept {
  if (!is_noted()) return;
  Inside inside;
  hooked.store(true, std::memory_order_relaxed);
  if (unusual_thread & thread_state::NEW) note_this_thread();
  births.put(as_word(block), {last_used.numbers.next(), trace_of_block(CALLER_FRAME), 0, 0, nullptr});
}

PUBLIC void sptr_recorder_object(void* block, const volatile void* object, unsigned long size,
                                 const char* type) noexcept {
  if (!is_noted()) return;
  Inside inside;
  auto& table = births.of(as_word(block));
  std::lock_guard<Lock> guard(table.lock);
  Birth* birth = table.find(as_word(block));
  if (!birth) return;
  birth->object = as_word(object);
  birth->size = size;
  birth->type = type;
}

PUBLIC void sptr_recorder_died(void* block) noexcept {
  if (!is_noted()) return;
  Inside inside;
  births.erase(as_word(block));
}

PUBLIC void sptr_recorder_set(const volatile void* handle, void* block, int is_weak) noexcept {
  if (!is_noted()) return;
  Word at = as_word(handle);
  if (is_on_this_stack(at)) return;
  Inside inside;
  if (block)
    holdings.put(at, {as_word(block), is_weak != 0});
  else
    holdings.erase(at);
}
