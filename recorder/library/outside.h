// Memory that neither malloc nor a library has.
#pragma once
#include "modules.h"
#include "ranges.h"

namespace recorder {

void know_loader();  // before main

struct Outside {
  explicit Outside(const Modules& modules);  // no thread may stand still yet

  std::vector<Range> mapped;  // what the program mapped itself or took by sbrk, in the order of addresses
};

}  // namespace recorder
