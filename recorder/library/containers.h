// What containers of libstdc++ look like in memory.
#pragma once
#include "snapshot.h"

namespace recorder {

// Whether a deque's iterator begins here: it stands at the chunk's beginning, and ends with where the deque
// keeps that.
bool is_deque(const Word* words, const Snapshot& all);

// The end of what is filled where three pointers of a vector begin here; 0 where they don't.
Word filled_by_vector(const Word* words, const LiveChunk& chunk);

// Where the table of a hashed container begins that has its head here: buckets, their number, the first node, the
// number of elements, the load, and room for one bucket. 0 where there is none.
Word table_of(Word head, Word end);

}  // namespace recorder
