// Memory of the recorder, apart from the program's heap.
#pragma once
#include <utility>

#include "base.h"

namespace recorder {

void* own_pages(std::size_t bytes);
void give_own_pages(void* pages, std::size_t bytes);

// Where own pages lie, for each place below `own_ranges`; some are empty.
std::size_t own_ranges();
std::pair<Word, Word> own_range(std::size_t place);

// Empty room for something small that is never given back; null where no memory is left.
void* own_room(std::size_t bytes);

// Round a fork.
void lock_room();
void unlock_room();

// While one lives, what its thread takes by malloc comes from a region of its own, and is given back as a whole
// at its end: threads that stand still may hold the locks of the program's heap.
class OwnRegion {
public:
  OwnRegion();
  ~OwnRegion();
  OwnRegion(const OwnRegion&) = delete;

  static bool is_used() { return unusual_thread & thread_state::IN_OWN_REGION; }
  static void* take(std::size_t bytes, std::size_t alignment);  // gives up the reading where nothing is left
  static void give_back();                                      // where its end isn't reached
  static bool has(const void* memory) { return reinterpret_cast<Word>(memory) - from < to - from; }
  static std::size_t size_of(const void* memory);
  static void give(void* memory);  // the pages of what is large

private:
  static Word from, to;
};

}  // namespace recorder
