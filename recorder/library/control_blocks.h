// Which words are pointers to the virtual functions of control blocks, as long as the program runs.
#pragma once
#include "base.h"

namespace recorder {

bool is_control_block_type(const char* mangled);  // std's or Boost's, which have their counts at the same place
bool is_boost_block_type(const char* mangled);
bool is_control_block_table(Word word);

// Reads memory that may vanish meanwhile; false where it isn't there.
bool read_safely(Word from, void* to, std::size_t bytes);

}  // namespace recorder
