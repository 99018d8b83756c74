// The malloc that would be the program's own.
#pragma once
#include "base.h"

namespace recorder {

struct NextMalloc {
  void* (*malloc)(std::size_t);
  void (*free)(void*);
  void* (*calloc)(std::size_t, std::size_t);
  void* (*realloc)(void*, std::size_t);
  void* (*memalign)(std::size_t, std::size_t);
  std::size_t (*usable_size)(void*);
};

// Found at the first call, which ends the recording where it isn't the C library's: its chunks alone are known.
OF_ALL_UNITS NextMalloc next_malloc;

// Ends the recording where the program doesn't even come here, as it has one itself.
void refuse_own_malloc();

}  // namespace recorder
