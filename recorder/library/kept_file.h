// Files that are opened before main, as later they may be out of reach.
#pragma once
#include "base.h"

namespace recorder {

// Its number is a high one, out of the way of the program's own files, and the program's close() doesn't find it.
class KeptFile {
public:
  void keep(int file);  // takes it, and gives up what was kept
  void close();
  int number() const;  // -1 where none is kept, or the program has put another file there

  static bool is_kept(int number);
  static void forget_all();  // they stay open, and are the program's as any other

private:
  int file = -1;
  unsigned long device = 0, inode = 0;
};

}  // namespace recorder
