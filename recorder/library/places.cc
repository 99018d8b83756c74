#include "places.h"

#include <dlfcn.h>

#include <algorithm>
#include <iterator>
#include <mutex>

#include "closed.h"
#include "own_memory.h"

namespace recorder {

Entrance entrance{};
std::atomic<PlaceTable*> place_table{nullptr};
std::atomic<std::uint32_t> module_closings{0};
PlainPlaces plain_places;

namespace {

Lock adding;

void copy(const Place& from, Place& to) {
  to.closings = from.closings.load();
  to.rule = from.rule;
  to.role = from.role.load();
  to.plain = from.plain.load();
  to.blocks = from.blocks.load();
  to.made = from.made.load();
  to.trace = from.trace.load();
  to.samples = from.samples.load();
  to.walks = from.walks.load();
  to.code.store(from.code.load(), std::memory_order_release);
}

PlaceTable* grown(PlaceTable* before) {
  std::size_t capacity = before ? before->capacity * 2 : 1 << 10;
  auto after = static_cast<PlaceTable*>(own_pages(sizeof(PlaceTable) + capacity * sizeof(Place)));
  if (!after) return nullptr;
  after->capacity = capacity;
  for (std::size_t at = 0; before && at < before->capacity; at++)
    if (Word code = before->slots[at].code) copy(before->slots[at], after->slot(code));
  after->used = before ? before->used : 0;
  place_table.store(after, std::memory_order_release);
  return after;
}

// Whether it is a function of C++ that takes memory for others.
bool is_operator_new(Word function) {
  static const char* const NAMES[] = {"_Znwm", "_Znam", "_ZnwmSt11align_val_t", "_ZnamSt11align_val_t",
                                      "_ZnwmRKSt9nothrow_t", "_ZnamRKSt9nothrow_t"};
  static Word found[std::size(NAMES)];
  for (std::size_t at = 0; at < std::size(NAMES) && !found[std::size(NAMES) - 1]; at++)
    found[at] = reinterpret_cast<Word>(dlsym(RTLD_DEFAULT, NAMES[at]));
  return function && std::find(std::begin(found), std::end(found), function) != std::end(found);
}

}  // namespace

// (the module is asked for before the lock is taken, as the loader has locks of its own)
Place* add_place(Word code) {
  Word function = 0;
  std::uint32_t closings = module_closings;
  Rule rule = rule_of(code, function);
  bool is_new = is_operator_new(function);
  std::lock_guard<Lock> guard(adding);
  PlaceTable* all = place_table;
  if (!all || (all->used + 1) * 2 > all->capacity) all = grown(all);
  if (!all) return nullptr;
  Place& place = all->slot(code);
  bool is_there = place.code;
  if (!is_there || place.rule != rule) {  // (another module may be there now)
    place.rule = rule;
    place.role = is_new ? Place::THROUGH : Place::UNKNOWN;
  }
  if (is_new && !entrance.code && rule.kind == Rule::BY_STACK && rule.base_at == Rule::KEPT) {
    entrance.caller_stack = static_cast<Word>(rule.caller_stack);
    entrance.code = code;
  }
  place.closings = closings;
  place.code.store(code, std::memory_order_release);
  all->used += !is_there;
  return &place;
}

void lock_places() { adding.lock(); }
void unlock_places() { adding.unlock(); }

}  // namespace recorder

using namespace recorder;

// (what is known of a module's code is asked for anew)
extern "C" __attribute__((visibility("default"))) int dlclose(void* module) {
  static auto next = reinterpret_cast<int (*)(void*)>(dlsym(RTLD_NEXT, "dlclose"));
  if (!is_recording()) return next(module);
  recorder::ClosedLibrary library = recorder::library_of(module);
  int failed = next(module);
  if (!failed && library.to) recorder::note_closed(library);
  entrance.code = 0;
  module_closings++;
  forget_answers();
  return failed;
}
