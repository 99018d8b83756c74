// The end of what can be told of this process.
#pragma once
#include "base.h"

namespace recorder {

// Reads memory, once in each process. `stack` is the newest byte of the frames that live in this thread, or 0.
void read_at_end(const char* when, Word stack);

// Reads memory while the process goes on.
void read_now(int snapshot);

// Tells now that nothing will be told, and why.
void refuse_now(const char* why);

// The same. From now on the recorder does nothing that the program didn't ask for: any call of the system's may be its
// end.
void refuse_now_and_keep_still(const char* why);

// By the signal that came, if it wasn't done yet.
void end_by_signal();

}  // namespace recorder
