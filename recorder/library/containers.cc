#include "containers.h"

#include <cstring>

namespace recorder {

bool is_deque(const Word* words, const Snapshot& all) {
  if (words[0] != words[1] || words[3] % WORD || all.chunk_of(words[3]) < 0) return false;
  return *reinterpret_cast<const Word*>(words[3]) == words[0];
}

Word filled_by_vector(const Word* words, const LiveChunk& chunk) {
  Word rest = chunk.to - chunk.from >= 1 << 17 ? 8192 : 48;  // what malloc gives more than is asked for
  bool is_vector = words[0] == chunk.from && words[1] >= words[0] && words[2] >= words[1] &&
                   words[2] > words[0] && words[2] <= chunk.to && chunk.to - words[2] <= rest;
  return is_vector ? words[1] : 0;
}

Word table_of(Word head, Word end) {
  if (head + 7 * WORD > end) return 0;
  auto words = reinterpret_cast<const Word*>(head);
  float load = 0;
  std::memcpy(&load, &words[4], sizeof load);
  bool is_head = words[1] && words[1] < Word(1) << 40 && load > 0.01f && load < 1000 && words[3] < Word(1) << 40;
  if (!is_head || !words[3] != !words[2]) return 0;
  return words[1] != 1 || words[0] == head + 6 * WORD ? words[0] : 0;
}

// Whether a list's or a tree's node begins here, by its own pointer back to the one at `at`: a list's next and previous,
// a tree's parent, left and right, in the node or in the container.
bool Snapshot::points_back(const LiveChunk& chunk, Word at) const {
  auto words = reinterpret_cast<const Word*>(chunk.from);
  Word count = (chunk.to - chunk.from) / WORD;
  auto is = [&](Word place, Word wanted) {
    if (place >= count || words[place] != wanted || is_block(wanted)) return false;
    return place + 1 >= count || !is_block(words[place + 1]);  // (a handle's pointer to its object is none)
  };
  bool is_in_list = is(1, at) || is(0, at - WORD);
  bool is_in_tree = is(1, at - WORD) || is(1, at - 2 * WORD) || is(1, at - 3 * WORD);
  return is_in_list || is_in_tree || is(2, at - WORD) || is(3, at - WORD);
}

}  // namespace recorder
