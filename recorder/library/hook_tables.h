// What the hooks of the program's headers told.
#pragma once
#include "chunks.h"
#include "table.h"

namespace recorder {

struct Birth {
  std::uint64_t number;
  TraceNumber trace;
  Word object;
  std::size_t size;  // 0 where it isn't known
  const char* type;  // the name of a function that has the object's type as its argument
};

struct Holding {
  Word block;
  bool is_weak;
};

OF_ALL_UNITS Tables<Birth> births;      // by control block
OF_ALL_UNITS Tables<Holding> holdings;  // by handle; those on a thread's own stack are left out

}  // namespace recorder
