// What lies where in this process, as the kernel tells it.
#pragma once
#include "base.h"

namespace recorder {

struct Mapping {
  Word from, to;
  bool is_writable, is_shared;
  unsigned long inode;
  char name[16];  // its beginning
};

// One mapping after another, in the order of their addresses. (It takes no memory of malloc, and uses no lock.)
class Mappings {
public:
  Mappings();
  ~Mappings();
  Mappings(const Mappings&) = delete;

  bool is_open() const { return file >= 0; }
  bool next(Mapping& mapping);  // false where there are no more

private:
  int next_byte();

  int file;
  char text[1024];
  std::size_t at = 0, size = 0;
};

}  // namespace recorder
