// Libraries that the program has closed, and the types that their tables of virtual functions told.
#pragma once
#include "base.h"

namespace recorder {

struct ClosedLibrary {
  Word from, to, base;
  char path[256];
};

// Before a library is closed, whose tables are noted, and after that.
ClosedLibrary library_of(void* handle);
void note_closed(const ClosedLibrary& library);

// Round a fork.
void lock_closed();
void unlock_closed();

// Of each place below `closed_libraries`.
const ClosedLibrary& closed_library(std::size_t place);
std::size_t closed_libraries();

// The first that lay at an address; `closed_libraries` where none did.
std::size_t closed_place(Word word);

// Whether no other library that was closed lay where this one did: then its tables are certain.
bool lay_alone(std::size_t place);

struct ClosedTable {
  const char* type;
  std::ptrdiff_t to_top;
};

// The table that lay at an address of a library that is closed; null where none did.
const ClosedTable* closed_table(Word word);

}  // namespace recorder
