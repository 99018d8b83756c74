// What is made at a place in code: learnt from chunks that were made there.
#pragma once
#include "places.h"

namespace recorder {

// A chunk that was made there, with what is in it.
void learn(Place& place, const Word* memory, std::size_t bytes);

// A chunk is asked for there of which nothing is known yet: now and then the ones before are looked at.
void look_at_samples(Place& place);

// Of a place of which nothing is known: remembers a chunk.
void add_sample(Place& place, Word chunk);

}  // namespace recorder
