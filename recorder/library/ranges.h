// Ranges of memory, and what of them was ever used.
#pragma once
#include <vector>

#include "base.h"

namespace recorder {

struct Range {
  Word from, to;
  bool is_shared;             // with other processes, which may take it away
  bool is_of_loader = false;  // mapped before the program began
};

// The parts of the ranges without another, and those within it.
void take_out(std::vector<Range>& ranges, Word from, Word to);
std::vector<Range> parts_within(const std::vector<Range>& ranges, Word from, Word to);

// Adds the parts of a large range that were ever written to, with small gaps: programs reserve more than they use.
void add_used(const Range& range, std::vector<Range>& to);

}  // namespace recorder
